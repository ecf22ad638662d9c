//! Scripts written by hand beside the worked examples': what needs the US layout, odd maps, or many calls.
use crate::examples::{
  boards::{code, key, named, text, Board, Boards},
  scripts::{
    alone, before_alt_gr, bring, character, dead_character, gain, held, loss, lparam, more, press, refused, release,
    seeing, typed, Step,
  },
  tables::{small, unicode, Table, Tables},
};
use areas::break_table::write;
use kbtypes::{Code, Key, LayoutSpec, Native};
use std::sync::Arc;

/// All five native codes as values and as keys of lists, the longest text, texts with 00, the ends of dead characters,
/// the five keys that have a text of their own.
pub fn natives() -> LayoutSpec {
  let mut l = LayoutSpec::empty(105);
  let values = [
    ("Digit1", Key::Unidentified(Native::Unidentified)),
    ("Digit2", Key::Unidentified(Native::Windows(0xBEEF))),
    ("Digit3", Key::Unidentified(Native::MacOS(0x12))),
    ("Digit4", Key::Unidentified(Native::Gtk(0xFFFF))),
    ("Digit5", Key::Unidentified(Native::Android(-2))),
    ("Digit6", Key::Dead(Some('\u{10FFFF}'))),
    ("Digit7", Key::Dead(Some('\0'))),
    ("Digit8", text("twenty-four bytes: a\u{10FFFF}")),
    ("Digit9", text("\0")),
  ];
  for (i, (name, value)) in values.into_iter().enumerate() {
    let i = i as u8;
    key(&mut l, 0x31 + i, 0x02 + u16::from(i), None);
    l.keys[0].insert(code(name), value.clone());
    l.keys[1].insert(code(name), text(&format!("{}\u{301}", i + 1)));
    // on the numpad with Num Lock on; the scan codes are unlisted ones
    key(&mut l, 0x61 + i, 0x60 + u16::from(i), None);
    l.numlock_on.insert(0x61 + i, value);
  }
  for (native, found) in [
    (Native::Unidentified, "none"),
    (Native::Windows(0), "00"),
    (Native::Windows(0x7F), "7F"),
    (Native::MacOS(0x7F), "MacOS"),
    (Native::Gtk(0x7F), "Gtk"),
    (Native::Android(0x7F), "Android"),
    (Native::Android(-1), "-1"),
    (Native::Android(i32::MIN), "least"),
  ] {
    l.keys[0].insert(Code::Unidentified(native), text(found));
  }
  for (vk, scan, name) in
    [(0x08, 0x0E, "Backspace"), (0x09, 0x0F, "Tab"), (0x0D, 0x1C, "Enter"), (0x1B, 0x01, "Escape")]
  {
    key(&mut l, vk, scan, Some(name));
  }
  key(&mut l, 0x20, 0x39, Some("Space"));
  key(&mut l, 0x13, 0xE11D, Some("Pause"));
  key(&mut l, 0x60, 0x52, None);
  l.numlock_off.insert(0x60, Key::Dead(None));
  l.numlock_on.insert(0x60, named("Copy"));
  l
}

/// A keyboard with this layout and these keys down or toggled.
fn board(layout: &Arc<LayoutSpec>, bytes: &'static [(u8, u8)]) -> Board {
  Board { name: "", layout_name: "", layout: layout.clone(), bytes }
}

/// Every key of a layout pressed with nothing peeked, and released.
fn keys(b: &Board) -> Vec<Step> {
  let keys = b.layout.scan_of_vk.iter().enumerate().filter(|(_, scan)| **scan != 0);
  let keys = keys.map(|(vk, scan)| (vk as u64, u64::from(*scan)));
  keys.flat_map(|(vk, scan)| [press(b, vk, scan), alone(b, 0), release(b, vk, scan), alone(b, 0)]).collect()
}

/// Digits as a scanner's queue has them.
fn card(b: &Board, digits: &str) -> Vec<Step> {
  let mut steps = vec![];
  for d in digits.bytes().map(u64::from) {
    let scan = if d == 0x30 { 0x0B } else { d - 0x2F };
    steps.extend([
      press(b, d, scan),
      seeing(b, 0, 0x102, d, lparam(scan)),
      bring(b, 0x102, d, lparam(scan)),
      seeing(b, 0, 0x101, d, 0xC000_0000 | lparam(scan)),
      release(b, d, scan),
      alone(b, 0),
    ]);
  }
  steps
}

/// Eight messages of several kinds inside one another, with focus and dead characters inside the eighth.
fn depth_eight(b: &Board, busy: &Board, german: &Board) -> Vec<Step> {
  let mut steps = held(b, vec![]);
  steps.extend([
    character(b, 0x61),
    release(b, 0x45, 0x12),
    press(b, 0x45, 0x12),
    bring(b, 0x104, 0x31, lparam(0x02)),
    bring(b, 0x105, 0x31, 0xC000_0000 | lparam(0x02)),
    bring(b, 0x106, 0xE9, lparam(0x12)),
    press(german, 0x11, 0x1D),
    release(german, 0x11, 0x1D),
    gain(busy),
    bring(b, 0x107, 0xB4, lparam(0x0D)),
    refused(5, dead_character(b, 0xB4)),
    character(b, 0x61),
    bring(b, 0x104, 0x73, lparam(0x3E)),
    bring(b, 0x108, 0, 0),
    refused(6, press(b, 0x31, 0x02)),
    refused(10, alone(b, 0)),
    before_alt_gr(german, 7, 0x101),
    before_alt_gr(german, 6, 0x105),
    loss(busy),
    alone(b, 5),
    more(b, 4),
    more(b, 3),
    character(b, 0x62),
    more(b, 19),
    more(b, 2),
    alone(b, 1),
    alone(b, 0),
    character(b, 0x63),
  ]);
  steps
}

/// The numbers of units that a press can hold, in their longest texts.
fn units(b: &Board) -> Vec<Step> {
  let mut steps = typed(b, &[0x20AC; 16]);
  steps.extend(typed(b, &[0x1_F600; 8]));
  steps.extend(typed(b, &[0xD83D, 0xDE00].repeat(8)));
  steps.extend(typed(b, &[0x11_0000; 8]));
  let mut fifteen = typed(b, &[0x61; 15]);
  fifteen.pop();
  steps.extend(fifteen);
  steps.extend([more(b, 0), refused(9, character(b, 0x1_F600)), character(b, 0xD83D), alone(b, 0)]);
  steps
}

/// Texts on both sides of each rule, by several tables.
fn pieces(b: &Board, tables: &[&Table]) -> Vec<Step> {
  let cases: [&[u64]; 46] = [
    &[0x0D, 0x0A],
    &[0x0A, 0x0D],
    &[0x0D, 0x0D],
    &[0x0D, 0x0A, 0x0A],
    &[0x0D, 0x0A, 0x301],
    &[0x0D, 0x301],
    &[0x301],
    &[0x301, 0x301],
    &[0x65, 0x300, 0x36F, 0x301],
    &[0x65, 0x2FF],
    &[0x65, 0x370],
    &[0x1_F600, 0x301],
    &[0x1_F600, 0x1_F600],
    &[0x31, 0x32],
    // Control, and what goes before and behind it
    &[0x1B, 0x301],
    &[0x600, 0x1B],
    &[0x200B, 0x200D],
    // Hangul
    &[0x1100, 0x1100, 0x1161, 0x1161, 0x11A8, 0x11A8],
    &[0x1100, 0xAC00, 0x1161, 0x11A8],
    &[0x1100, 0xAC01, 0x11A8],
    &[0xAC00, 0xAC00],
    &[0xAC01, 0x1161],
    &[0x1100, 0x11A8],
    &[0x1161, 0x1100],
    &[0x11A8, 0x1161],
    &[0x1100, 0x301, 0x1161],
    // Extend, ZWJ, SpacingMark, Prepend
    &[0x31, 0x200D],
    &[0x915, 0x94D, 0x937],
    &[0x915, 0x903, 0x94D],
    &[0x600, 0x605, 0x31, 0x301],
    &[0x600, 0x1_F1E6, 0x1_F1E6],
    &[0x31, 0x600],
    // pictographs
    &[0x1_F468, 0x200D, 0x1_F469, 0x200D, 0x1_F466],
    &[0x1_F468, 0x1_F3FB, 0x36F, 0x200D, 0x1_F469],
    &[0x1_F468, 0x200D, 0x200D, 0x1_F469],
    &[0x1_F468, 0x200D, 0x301, 0x1_F469],
    &[0x1_F468, 0x903, 0x200D, 0x1_F469],
    &[0x61, 0x200D, 0x1_F469],
    &[0x200D, 0x1_F469],
    &[0x0A, 0x1_F3FB, 0x200D, 0x1_F469],
    &[0xA9, 0x200D, 0xAE],
    // regional indicators
    &[0x1_F1E6, 0x1_F1FF],
    &[0x1_F1E6, 0x1_F1E6, 0x1_F1E6],
    &[0x1_F1E6, 0x1_F1E6, 0x1_F1E6, 0x1_F1E6, 0x1_F1E6],
    &[0x1_F1E6, 0x301, 0x1_F1E6],
    &[0x31, 0x1_F1E6, 0x1_F1E6],
  ];
  let by = |table: &Table| cases.iter().flat_map(|codes| typed(b, codes)).map(|s| s.on(table)).collect::<Vec<Step>>();
  tables.iter().flat_map(|t| by(t)).collect()
}

/// Classes and marks that Unicode's table has not: an Extend, a ZWJ, a regional indicator and a Prepend that are
/// pictographs; and a range that holds the surrogates.
pub fn odd_table() -> Table {
  let ranges = [
    (0x0A, 0x0A, 21),
    (0x0D, 0x0D, 20),
    (0x31, 0x31, 16),
    (0x32, 0x32, 22),
    (0x61, 0x61, 23),
    (0x301, 0x301, 5),
    (0x1100, 0x1100, 25),
    (0x11A8, 0x11A8, 19),
    (0xD7FF, 0xE000, 4),
    (0x1_F469, 0x1_F469, 28),
    (0x1_F600, 0x10_FFFF, 20),
  ];
  Table::new("odd", "", write(&ranges))
}

/// Ways in which bytes are no table.
fn no_tables() -> Vec<Table> {
  let own = write(&[(0x0A, 0x0A, 2), (0x0D, 0x0D, 1), (0x300, 0x36F, 4)]);
  let mut form = own.clone();
  form[0] = 1;
  let mut count = own.clone();
  count[4] = 4;
  let bytes = [
    vec![],
    vec![0; 7],
    own[..own.len() - 1].to_vec(),
    [&own[..], &[0]].concat(),
    form,
    count,
    write(&[(0x0A, 0x0D, 2), (0x0D, 0x0D, 1)]),
    write(&[(0x0D, 0x0D, 1), (0x0A, 0x0A, 2)]),
    write(&[(0x0D, 0x0A, 1)]),
    write(&[(0xD7FF, 0xD800, 4)]),
    write(&[(0xDFFF, 0xE000, 4)]),
    write(&[(0x0D, 0x11_0000, 4)]),
    write(&[(0x0D, 0x0D, 14)]),
    write(&[(0x0D, 0x0D, 32)]),
  ];
  bytes.into_iter().map(|bytes| Table::new("", "", bytes)).collect()
}

/// Each of them at an open, a finish and an ignored message, between calls that are answered.
fn bad_tables(b: &Board) -> Vec<Step> {
  let mut steps = vec![];
  for t in no_tables() {
    steps.extend([
      refused(11, press(b, 0x31, 0x02).on(&t)),
      press(b, 0x31, 0x02),
      refused(11, more(b, 0).on(&t)),
      refused(11, alone(b, 1).on(&t)),
      more(b, 0),
      refused(11, bring(b, 0x12, 0, 0).on(&t)),
      refused(11, dead_character(b, 0xB4).on(&t)),
      refused(11, loss(b).on(&t)),
      character(b, 0x0D),
      more(b, 0),
      character(b, 0x0A),
      refused(11, alone(b, 0).on(&t)),
      alone(b, 0),
      refused(11, character(b, 0x61).on(&t)),
      character(b, 0x61),
    ]);
  }
  steps
}

/// Tables that change from call to call: that of the last finish decides.
fn changing_tables(b: &Board, tables: &[&Table]) -> Vec<Step> {
  let mut steps = vec![];
  for codes in [&[0x0D, 0x0A][..], &[0x31, 0x301], &[0x1_F469, 0x200D, 0x1_F468], &[0x1_F1E6, 0x1_F1E7]] {
    for last in 0..tables.len() {
      for before in 0..tables.len() {
        let mut some: Vec<Step> = typed(b, codes).into_iter().map(|s| s.on(tables[before])).collect();
        let end = some.pop().unwrap().on(tables[last]);
        steps.extend(some);
        steps.push(end);
      }
    }
  }
  steps
}

fn surrogates(b: &Board) -> Vec<Step> {
  let cases: [&[u64]; 14] = [
    &[0xD83D, 0xDE00],
    &[0xDE00, 0xD83D],
    &[0xD800, 0xDC00],
    &[0xDBFF, 0xDFFF],
    &[0xD83D, 0x61, 0xDE00],
    &[0xD83D, 0xD83D, 0xDE00],
    &[0xDFFF],
    &[0xD7FF],
    &[0xE000],
    &[0x1_0000_D800],
    &[0xD800_0000_D800],
    &[0xFFFF_D83D],
    &[0x1_0000_0000_0061],
    &[0x10_FFFF],
  ];
  cases.iter().flat_map(|codes| typed(b, codes)).collect()
}

/// Kinds, wParams and lParams of more bits than the usual.
fn wide(b: &Board) -> Vec<Step> {
  let mut steps: Vec<Step> = [0x1_0007, 0x1_0008, 0x1_0100, 0x1_0101, 0x1_0103, 0x1_0107, 0x8000_0104, 0xFFFF_FFFF]
    .map(|kind| bring(b, kind, 0x31, lparam(0x02)))
    .into();
  for kind in [0x1_0100, 0x1_0101, 0x1_0104, 0x8000_0105, 0x0, 0x1_0012, 0xFFFF_FFFF] {
    steps.extend([press(b, 0x31, 0x02), seeing(b, 0, kind, 0x31, lparam(0x02)), dead_character(b, 0x60)]);
  }
  steps.extend(held(b, vec![character(b, 0x61), seeing(b, 0, 0x1_0102, 0x61, lparam(0x02))]));
  steps.extend(held(
    b,
    vec![character(b, 0x61), seeing(b, 0, 0x106, 0x61, lparam(0x02)), character(b, 0x62), alone(b, 0)],
  ));
  for wparam in [0x73, 0x1_0073, 0x1_0000_0073, 0x173, 0xFFFF_FFFF_FFFF_0073] {
    steps.push(bring(b, 0x104, wparam, lparam(0x3E)));
    if wparam != 0x73 {
      steps.push(alone(b, 0));
    }
  }
  for high in [0x4000_0000, 0x8000_0000, 0xC000_0000, 0x1_0000_0000, 0xFFFF_FFFF_0000_0000, 0x3E00_FFFF, 0x100_0000] {
    steps.extend([bring(b, 0x100, 0x41_0031, high | lparam(0x02)), alone(b, 0)]);
    steps.extend([bring(b, 0x105, 0x41_0031, high | lparam(0x02)), alone(b, 0)]);
  }
  steps
}

/// Scan code 00 on several layouts, with bit 24 and without; the layout changes between open and finish.
fn code_zero(boards: &[&Board]) -> Vec<Step> {
  let mut steps = vec![];
  for (i, b) in boards.iter().enumerate() {
    let other = boards[(i + 1) % boards.len()];
    for vk in [0x0D, 0x13, 0x31, 0xA5, 0xB3, 0x07, 0x131] {
      for l in [0x1, 0x100_0001] {
        steps.extend([bring(b, 0x100, vk, l), alone(other, 0), bring(b, 0x101, vk, l), alone(other, 0)]);
      }
    }
  }
  steps
}

/// Control with and without Alt at the press's finish, at the last character's, at both.
fn control(none: &Board, with: &[&Board]) -> Vec<Step> {
  let mut steps = vec![];
  for c in with {
    for (at_press, at_character) in [(c, &none), (&none, c), (c, c)] {
      for (vk, scan, typed) in [(0x31, 0x02, 0x31), (0x45, 0x12, 0x05), (0x0D, 0x1C, 0x0A)] {
        steps.extend([press(none, vk, scan), more(at_press, 0), character(none, typed), alone(at_character, 0)]);
      }
      steps.extend([press(none, 0x31, 0x02), alone(at_press, 0), release(at_character, 0x45, 0x12), alone(none, 0)]);
    }
    steps.extend([press(none, 0x90, 0x45), alone(c, 0), release(c, 0x13, 0xE046), alone(none, 0)]);
    steps.extend([press(none, 0x13, 0xE045), more(c, 0), character(none, 0x03), alone(c, 0)]);
  }
  steps
}

/// Name and calls of each script.
pub fn scripts(us: &Arc<LayoutSpec>) -> Vec<(&'static str, Vec<Step>)> {
  let b = Boards::new();
  let (unicode, no_ranges) = (unicode(), Tables::new().no_ranges);
  let natives = Arc::new(natives());
  let us_none = board(us, &[]);
  let us_shift = board(us, &[(0x10, 0x80), (0x14, 0x01), (0x90, 0x01), (0xA0, 0x80)]);
  let us_control = board(us, &[(0x11, 0x80), (0xA2, 0x80)]);
  let us_control_alt = board(us, &[(0x11, 0x80), (0x12, 0x80), (0xA2, 0x80), (0xA4, 0x80)]);
  const ALL: [(u8, u8); 256] = {
    let mut all = [(0, 0x81); 256];
    let mut i = 0;
    while i < 256 {
      all[i].0 = i as u8;
      i += 1;
    }
    all
  };
  let us_all = board(us, &ALL);
  let odd_keys = board(&natives, &[]);
  let odd_all = board(&natives, &ALL);
  let odd_shift = board(&natives, &[(0x10, 0x80), (0xA0, 0x80)]);
  let odd_num_lock = board(&natives, &[(0x90, 0x01)]);
  let mut natives_keys: Vec<Step> = [&odd_keys, &odd_shift, &odd_num_lock].into_iter().flat_map(keys).collect();
  natives_keys.extend([
    release(&odd_keys, 0x07, 0x7F),
    alone(&odd_keys, 0),
    release(&odd_keys, 0x07, 0x00),
    alone(&odd_keys, 0),
  ]);
  natives_keys.extend([gain(&odd_all), loss(&odd_all)]);
  vec![
    ("card", card(&us_none, "89310410106543789301")),
    ("us-keys", keys(&us_none)),
    ("us-keys-shift", keys(&us_shift)),
    ("us-keys-control", keys(&us_control)),
    ("us-focus", vec![gain(&us_all), loss(&us_all), press(&us_none, 0x31, 0x02), loss(&us_all), alone(&us_none, 0)]),
    ("us-control", control(&us_none, &[&us_control, &us_control_alt])),
    ("german-control", control(&b.german, &[&b.us_control, &b.german_alt_gr])),
    ("natives", natives_keys),
    ("depth-eight", depth_eight(&b.us, &b.us_busy, &b.german)),
    ("units", units(&b.us)),
    ("pieces", pieces(&b.us, &[&small(), &unicode, &no_ranges, &odd_table()])),
    ("changing-tables", changing_tables(&b.us, &[&small(), &unicode, &no_ranges, &odd_table()])),
    ("bad-tables", bad_tables(&b.us)),
    ("surrogates", surrogates(&b.us)),
    ("wide", wide(&b.us)),
    ("code-zero", code_zero(&[&b.us, &b.odd, &b.moved, &odd_keys, &us_none])),
  ]
}
