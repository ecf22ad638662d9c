//! Stand-in for unicode_segmentation: counts the extended grapheme clusters of Unicode's Annex 29 by the break table that
//! `set_table` names, in one pass forward. `set_counter` puts another counter in its place.
use kbtypes::BreakTable;
use std::{
  cell::{Cell, RefCell},
  sync::Arc,
};

pub type Counter = fn(&BreakTable, &str) -> usize;

thread_local! {
  static COUNTER: Cell<Counter> = const { Cell::new(clusters) };
  static TABLE: RefCell<Option<Arc<BreakTable>>> = const { RefCell::new(None) };
}

pub fn set_counter(c: Counter) {
  COUNTER.with(|k| k.set(c));
}

/// The table by which texts are counted from now on in this thread.
pub fn set_table(table: &Arc<BreakTable>) {
  TABLE.with(|t| {
    let mut t = t.borrow_mut();
    if !t.as_ref().is_some_and(|now| Arc::ptr_eq(now, table)) {
      *t = Some(table.clone());
    }
  });
}

const CR: u8 = 1;
const LF: u8 = 2;
const CONTROL: u8 = 3;
const EXTEND: u8 = 4;
const ZWJ: u8 = 5;
const REGIONAL_INDICATOR: u8 = 6;
const PREPEND: u8 = 7;
const SPACING_MARK: u8 = 8;
const L: u8 = 9;
const V: u8 = 10;
const T: u8 = 11;
const LV: u8 = 12;
const LVT: u8 = 13;

/// Break class, and whether it is a pictograph.
fn kind(table: &BreakTable, c: char) -> (u8, bool) {
  let at = table.ranges.partition_point(|r| r.last < c);
  match table.ranges.get(at) {
    Some(r) if r.first <= c => (r.class, r.pictograph),
    _ => (0, false),
  }
}

/// What the text so far says about what comes next.
#[derive(Default)]
struct State {
  /// Class of the last scalar value.
  last: u8,
  /// The text ends with a pictograph and any number of Extend.
  pictograph: bool,
  /// It ends with such and a ZWJ.
  joined: bool,
  /// It ends with an odd number of regional indicators.
  odd: bool,
}

impl State {
  /// Whether there is a boundary before a scalar value of this kind.
  fn breaks(&self, class: u8, pictograph: bool) -> bool {
    match (self.last, class) {
      (CR, LF) => false,
      (CR | LF | CONTROL, _) | (_, CR | LF | CONTROL) => true,
      (L, L | V | LV | LVT) | (LV | V, V | T) | (LVT | T, T) => false,
      (_, EXTEND | ZWJ | SPACING_MARK) | (PREPEND, _) => false,
      _ if self.joined && pictograph => false,
      (_, REGIONAL_INDICATOR) => !self.odd,
      _ => true,
    }
  }

  fn add(&mut self, class: u8, pictograph: bool) {
    self.joined = class == ZWJ && self.pictograph;
    self.pictograph = pictograph || class == EXTEND && self.pictograph;
    self.odd = class == REGIONAL_INDICATOR && !self.odd;
    self.last = class;
  }
}

/// How many clusters a text has.
pub fn clusters(table: &BreakTable, text: &str) -> usize {
  let mut all = text.chars().map(|c| kind(table, c));
  let Some((class, pictograph)) = all.next() else { return 0 };
  let mut state = State::default();
  state.add(class, pictograph);
  let mut count = 1;
  for (class, pictograph) in all {
    count += usize::from(state.breaks(class, pictograph));
    state.add(class, pictograph);
  }
  count
}

pub trait UnicodeSegmentation {
  fn grapheme_indices(&self, extended: bool) -> std::ops::Range<usize>;
}
impl UnicodeSegmentation for str {
  fn grapheme_indices(&self, extended: bool) -> std::ops::Range<usize> {
    assert!(extended);
    let count = COUNTER.with(|k| k.get());
    TABLE.with(|t| 0..count(t.borrow().as_ref().expect("a table is set"), self))
  }
}
