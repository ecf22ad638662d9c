//! The data that all sides share. Nothing in here decides anything.
use std::{collections::BTreeMap, fmt, sync::Arc};

include!(concat!(env!("OUT_DIR"), "/names.rs"));

/// NativeKeyCode.
#[derive(Clone, Copy, PartialEq, Eq, PartialOrd, Ord, Hash, Debug)]
pub enum Native {
  Unidentified,
  Windows(u16),
  MacOS(u16),
  Gtk(u16),
  Android(i32),
}

/// A physical key: its place in KeyCode (never 0), or unidentified with its native code.
#[derive(Clone, Copy, PartialEq, Eq, PartialOrd, Ord, Hash)]
pub enum Code {
  Named(u16),
  Unidentified(Native),
}

/// A logical key: `Named` is a place in Key (never 0, 1 or 2).
#[derive(Clone, PartialEq, Eq, Hash)]
pub enum Key {
  Character(Arc<str>),
  Unidentified(Native),
  Dead(Option<char>),
  Named(u16),
}

impl fmt::Debug for Code {
  fn fmt(&self, f: &mut fmt::Formatter<'_>) -> fmt::Result {
    match self {
      Code::Named(p) => f.write_str(CODE_NAMES[*p as usize]),
      Code::Unidentified(n) => write!(f, "Unidentified({n:X?})"),
    }
  }
}
impl fmt::Debug for Key {
  fn fmt(&self, f: &mut fmt::Formatter<'_>) -> fmt::Result {
    match self {
      Key::Character(s) => write!(f, "Character({s:?})"),
      Key::Unidentified(n) => write!(f, "Unidentified({n:X?})"),
      Key::Dead(c) => write!(f, "Dead({c:?})"),
      Key::Named(p) => f.write_str(KEY_NAMES[*p as usize]),
    }
  }
}

#[derive(Clone, Copy, PartialEq, Eq, Debug, Hash)]
#[repr(u8)]
pub enum Location {
  Standard = 0,
  Left = 1,
  Right = 2,
  Numpad = 3,
}

#[derive(Clone, Copy, PartialEq, Eq, Debug, Hash)]
#[repr(u8)]
pub enum ElementState {
  Pressed = 0,
  Released = 1,
}

#[derive(Clone, PartialEq, Eq, Debug)]
pub struct Event {
  pub physical_key: Code,
  pub logical_key: Key,
  pub text: Option<Arc<str>>,
  pub location: Location,
  pub state: ElementState,
  pub repeat: bool,
  pub synthetic: bool,
  pub text_with_all_modifiers: Option<Arc<str>>,
  pub key_without_modifiers: Key,
}

/// The `result` slot.
#[derive(Clone, Copy, PartialEq, Eq, Debug)]
pub enum Slot {
  DefaultProcedure,
  Value(i64),
}

/// What a layout block stands for.
#[derive(Clone, PartialEq, Eq, Debug)]
pub struct LayoutSpec {
  /// The layout handle that tao sees; no part of the block. Different contents need different ones.
  pub id: u32,
  pub alt_gr: bool,
  /// Place in Key; None where vkey_to_non_char_key answers Unidentified.
  pub non_char: [Option<u16>; 256],
  pub scan_of_vk: [u16; 256],
  /// Pages 00, E0 and E1.
  pub vk_of_scan: [[u16; 256]; 3],
  pub numlock_on: BTreeMap<u8, Key>,
  pub numlock_off: BTreeMap<u8, Key>,
  /// Index: Shift 1, Control 2, Alt 4, Caps Lock 8, added.
  pub keys: [BTreeMap<Code, Key>; 16],
}

impl LayoutSpec {
  /// No AltGr flag, no keys, every code 0.
  pub fn empty(id: u32) -> Self {
    LayoutSpec {
      id,
      alt_gr: false,
      non_char: [None; 256],
      scan_of_vk: [0; 256],
      vk_of_scan: [[0; 256]; 3],
      numlock_on: BTreeMap::new(),
      numlock_off: BTreeMap::new(),
      keys: Default::default(),
    }
  }
}

/// A range of a break table: scalar values of one break class (its number, 0 to 13), pictographs or not.
#[derive(Clone, Copy, PartialEq, Eq, Debug)]
pub struct BreakRange {
  pub first: char,
  pub last: char,
  pub class: u8,
  pub pictograph: bool,
}

/// What the bytes of a break table stand for: ranges that rise and do not touch one another in a scalar value.
#[derive(Clone, PartialEq, Eq, Debug, Default)]
pub struct BreakTable {
  pub ranges: Vec<BreakRange>,
}

#[derive(Clone, Copy, PartialEq, Eq, Debug)]
pub struct Peeked {
  pub kind: u32,
  pub wparam: u64,
  pub lparam: u64,
}

#[derive(Clone, Copy, PartialEq, Eq, Debug)]
pub enum Body {
  Open { kind: u32, wparam: u64, lparam: u64 },
  Finish { token: u32, peeked: Option<Peeked> },
}

/// WM_QUIT, which PeekMessageW hands out whatever the filter.
const QUIT: u32 = 0x12;

impl Body {
  /// Whether it is a finish with WM_QUIT peeked.
  pub fn sees_quit(&self) -> bool {
    matches!(self, Body::Finish { peeked: Some(m), .. } if m.kind == QUIT)
  }

  /// What tao is given of it: a peeked WM_QUIT counts as nothing peeked (docs/SCOPE.md, 3.17), where tao itself holds the press.
  pub fn for_tao(self) -> Body {
    match self {
      Body::Finish { token, .. } if self.sees_quit() => Body::Finish { token, peeked: None },
      other => other,
    }
  }
}

/// One call: its own arguments, the key-state bytes, the layout and the break table.
#[derive(Clone)]
pub struct Call {
  pub body: Body,
  pub state: Arc<[u8; 256]>,
  pub layout: Arc<LayoutSpec>,
  pub table: Arc<BreakTable>,
}

impl Call {
  /// What tao is given of it.
  pub fn for_tao(&self) -> Call {
    Call { body: self.body.for_tao(), ..self.clone() }
  }
}

impl fmt::Debug for Call {
  fn fmt(&self, f: &mut fmt::Formatter<'_>) -> fmt::Result {
    let down = self.state.iter().enumerate().filter(|(_, b)| **b != 0);
    let down: Vec<String> = down.map(|(i, b)| format!("{i:02X}:{b:02X}")).collect();
    let (layout, ranges) = (&self.layout, self.table.ranges.len());
    write!(f, "{:X?} layout {} altgr {} state [{}]", self.body, layout.id, layout.alt_gr, down.join(" "))?;
    write!(f, " table of {ranges} ranges")
  }
}

/// What can be seen of a session from outside.
#[derive(Clone, PartialEq, Eq, Debug)]
pub struct Snapshot {
  pub handed: u32,
  /// token, completed
  pub entries: Vec<(u32, bool)>,
  /// virtual key, scan code, units
  pub held: Option<(u16, u16, Vec<u16>)>,
}
