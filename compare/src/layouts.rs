//! The keyboard layouts of the scripts, each as maps for tao and as a block for the library.
use crate::dice::Dice;
use areas::block;
use kbtypes::{Code, Key, LayoutSpec, Native, CODE_NAMES, KEY_NAMES};
use std::sync::{
  atomic::{AtomicU32, Ordering::Relaxed},
  Arc,
};
use tao_oracle::{driver::forget_layouts, lookups, recording::Recording};

/// One layout: its maps, and the block that stands for them.
pub struct Layout {
  pub name: String,
  pub maps: Arc<LayoutSpec>,
  pub block: Vec<u8>,
}

impl Layout {
  pub fn new(name: &str, maps: LayoutSpec) -> Arc<Self> {
    let block = block::encode(&maps).unwrap_or_else(|e| panic!("{name}: {e:?}"));
    Arc::new(Layout { name: name.into(), maps: Arc::new(maps), block })
  }

  /// The maps of a block that is one.
  pub fn read(name: &str, id: u32, block: Vec<u8>) -> Option<Arc<Self>> {
    let maps = block::decode(id, &block).ok()?;
    Some(Arc::new(Layout { name: name.into(), maps: Arc::new(maps), block }))
  }
}

/// The next id for a layout that comes and goes. tao's cache knows a layout by its id alone, so none is given twice.
pub fn passing_id() -> u32 {
  PASSING.fetch_add(1, Relaxed)
}

/// Between scripts: empties tao's cache when many layouts came and went. Those that are needed again are put there again.
/// Not in tests, whose threads share the cache.
pub fn forget_passing() {
  let next = PASSING.load(Relaxed);
  if !cfg!(test) && next - FORGOTTEN.load(Relaxed) > 256 {
    forget_layouts();
    FORGOTTEN.store(next, Relaxed);
  }
}

static PASSING: AtomicU32 = AtomicU32::new(10_000);
static FORGOTTEN: AtomicU32 = AtomicU32::new(10_000);

fn place(names: &[&str], name: &str) -> u16 {
  names.iter().position(|n| *n == name).unwrap_or_else(|| panic!("{name}")) as u16
}
pub fn named(name: &str) -> Key {
  Key::Named(place(KEY_NAMES, name))
}
pub fn code(name: &str) -> Code {
  Code::Named(place(CODE_NAMES, name))
}
pub fn text(t: &str) -> Key {
  Key::Character(t.into())
}

fn page(scan: u16) -> Option<usize> {
  [0x00, 0xE0, 0xE1].iter().position(|p| *p == scan >> 8)
}

/// A virtual key, its scan code, and its non-character key.
pub fn key(maps: &mut LayoutSpec, vk: u8, scan: u16, non_char: Option<&str>) {
  maps.scan_of_vk[usize::from(vk)] = scan;
  if let Some(page) = page(scan) {
    maps.vk_of_scan[page][usize::from(scan & 0xFF)] = vk.into();
  }
  maps.non_char[usize::from(vk)] = non_char.map(|n| place(KEY_NAMES, n));
}

// ---- small layouts by hand

/// Ten digits, E, Enter, Escape, Space, the modifiers, the numpad's 0, F4, VK_CANCEL, Num Lock and Pause.
fn common(id: u32) -> LayoutSpec {
  let mut l = LayoutSpec::empty(id);
  for d in 0..10_u8 {
    let scan = if d == 0 { 0x0B } else { 1 + u16::from(d) };
    key(&mut l, 0x30 + d, scan, None);
    let name = format!("Digit{d}");
    for set in [0, 8] {
      l.keys[set].insert(code(&name), text(&d.to_string()));
    }
    l.keys[1].insert(code(&name), text(&")!@#$%^&*("[usize::from(d)..=usize::from(d)]));
  }
  for (vk, scan, name) in [
    (0x0D, 0x1C, "Enter"),
    (0x11, 0x1D, "Control"),
    (0x12, 0x38, "Alt"),
    (0x13, 0xE11D, "Pause"),
    (0x14, 0x3A, "CapsLock"),
    (0x1B, 0x01, "Escape"),
    (0x20, 0x39, "Space"),
    (0x73, 0x3E, "F4"),
    (0x90, 0xE045, "NumLock"),
    (0xA0, 0x2A, "Shift"),
    (0xA1, 0x36, "Shift"),
    (0xA2, 0x1D, "Control"),
    (0xA3, 0xE01D, "Control"),
    (0xA4, 0x38, "Alt"),
    (0xA5, 0xE038, "Alt"),
  ] {
    key(&mut l, vk, scan, Some(name));
  }
  key(&mut l, 0x03, 0xE046, None);
  key(&mut l, 0x45, 0x12, None);
  key(&mut l, 0x60, 0x52, None);
  l.numlock_on.insert(0x60, text("0"));
  l.numlock_off.insert(0x60, named("Insert"));
  for (set, e) in [(0, "e"), (1, "E"), (8, "E")] {
    l.keys[set].insert(code("KeyE"), text(e));
  }
  l
}

/// With the AltGr flag, an acute accent, and a dead key that has no character.
fn accent(id: u32) -> LayoutSpec {
  let mut l = common(id);
  l.alt_gr = true;
  key(&mut l, 0xDD, 0x0D, None);
  key(&mut l, 0xDE, 0x28, None);
  for set in [0, 8] {
    l.keys[set].insert(code("Equal"), Key::Dead(Some('´')));
    l.keys[set].insert(code("Quote"), Key::Dead(None));
  }
  for set in [0, 6] {
    l.keys[set].insert(code("AltRight"), named("AltGraph"));
  }
  l.keys[6].insert(code("KeyE"), text("€"));
  l.keys[6].insert(code("Digit2"), text("²"));
  l
}

/// What no common keyboard has: an unidentified key in a list, the code E11C, codes that KeyCode does not list, an entry
/// for VK_MENU, texts of several pieces, 00 in a text.
fn odd(id: u32) -> LayoutSpec {
  let mut l = LayoutSpec::empty(id);
  key(&mut l, 0x0D, 0xE11C, Some("Enter"));
  key(&mut l, 0x11, 0x1D, Some("Control"));
  key(&mut l, 0x12, 0x38, Some("Alt"));
  key(&mut l, 0x31, 0x02, None);
  key(&mut l, 0x32, 0x03, None);
  key(&mut l, 0x33, 0x04, None);
  key(&mut l, 0x34, 0x0105, None);
  key(&mut l, 0x35, 0x06, None);
  key(&mut l, 0xB3, 0xE022, Some("MediaPlayPause"));
  l.numlock_off.insert(0x12, text("m"));
  l.numlock_off.insert(0x31, Key::Unidentified(Native::Windows(0x7F)));
  l.numlock_on.insert(0x31, Key::Dead(Some('\u{10FFFF}')));
  for (native, found) in [
    (Native::Unidentified, "none"),
    (Native::Windows(0), "00"),
    (Native::Windows(0x7F), "ß"),
    (Native::Windows(0x105), "e\u{301}"),
    (Native::MacOS(0x7F), "MacOS"),
    (Native::Gtk(0x7F), "Gtk"),
    (Native::Android(-1), "-1"),
    (Native::Android(i32::MIN), "least"),
  ] {
    l.keys[0].insert(Code::Unidentified(native), text(found));
  }
  l.keys[0].insert(code("Digit1"), text("1"));
  l.keys[0].insert(code("Digit2"), text("twenty-four bytes: a\u{10FFFF}"));
  l.keys[0].insert(code("Digit3"), text("\0"));
  l.keys[0].insert(code("Digit5"), text("\r\n"));
  l.keys[1].insert(code("Digit2"), Key::Unidentified(Native::Android(-2)));
  l.keys[1].insert(code("Digit3"), Key::Unidentified(Native::MacOS(0x12)));
  l.keys[1].insert(code("Digit5"), Key::Unidentified(Native::Gtk(0xFFFF)));
  l
}

/// Every virtual key has a scan code of its own, so that a focus message can have as many events as there can be.
fn full(id: u32) -> LayoutSpec {
  let mut l = LayoutSpec::empty(id);
  for vk in 0..=255_u8 {
    let scan = if vk < 0x80 { u16::from(vk) + 1 } else { 0xE000 | u16::from(vk & 0x7F) };
    key(&mut l, vk, scan, None);
  }
  l.non_char[0x11] = Some(place(KEY_NAMES, "Control"));
  l.non_char[0x14] = Some(place(KEY_NAMES, "CapsLock"));
  l
}

// ---- random ones

/// Virtual keys that layouts have, the modifiers, those that decide a location, some that none has.
pub const KEYS: [u16; 44] = [
  0x03, 0x07, 0x08, 0x09, 0x0D, 0x10, 0x11, 0x12, 0x13, 0x14, 0x1B, 0x20, 0x21, 0x2D, 0x2E, 0x30, 0x31, 0x32, 0x33,
  0x34, 0x35, 0x37, 0x38, 0x45, 0x5B, 0x5C, 0x60, 0x69, 0x6E, 0x6F, 0x73, 0x90, 0xA0, 0xA1, 0xA2, 0xA3, 0xA4, 0xA5,
  0xB3, 0xC2, 0xDD, 0xDE, 0xE7, 0xFF,
];

const TEXTS: [&str; 14] = [
  "a",
  "1",
  "é",
  "€",
  "😀",
  "ß",
  "\0",
  "\r\n",
  "e\u{301}",
  "ab",
  "\u{36F}",
  "\u{10FFFF}",
  "twenty-four bytes, text.",
  "ffi\u{300}",
];

const COMMON_KEYS: [&str; 12] = [
  "Control",
  "Control",
  "Control",
  "Alt",
  "AltGraph",
  "Shift",
  "CapsLock",
  "Enter",
  "Tab",
  "Space",
  "Backspace",
  "Escape",
];

fn native(d: &mut Dice) -> Native {
  let short = d.of(&[0, 2, 0x1D, 0x7F, 0xE038, 0xFFFF]);
  match d.below(5) {
    0 => Native::Unidentified,
    1 => Native::Windows(short),
    2 => Native::MacOS(short),
    3 => Native::Gtk(short),
    _ => Native::Android(d.of(&[0, 1, -1, 0x7F, i32::MIN, i32::MAX])),
  }
}

fn any_named(d: &mut Dice) -> u16 {
  if d.now(60) {
    place(KEY_NAMES, d.of(&COMMON_KEYS))
  } else {
    3 + d.below(KEY_NAMES.len() - 3) as u16
  }
}

fn any_key(d: &mut Dice) -> Key {
  match d.below(10) {
    0..=4 => text(d.of(&TEXTS)),
    5 => Key::Unidentified(native(d)),
    6 => Key::Dead(None),
    7 => Key::Dead(Some(d.of(&['´', '^', '\0', '\u{301}', '\u{10FFFF}', '1']))),
    _ => Key::Named(any_named(d)),
  }
}

fn any_scan(d: &mut Dice) -> u16 {
  match d.below(20) {
    0..=10 => 1 + d.below(0x5F) as u16,
    11..=14 => 0xE000 | (1 + d.below(0x7F) as u16),
    15 => d.of(&[0xE11D, 0xE11C, 0xE145]),
    16 => d.of(&[0x1D, 0xE01D, 0xE038, 0x38]),
    17 => d.of(&[0x45, 0xE045, 0xE046, 0x54, 0xE037]),
    18 => d.of(&[0x105, 0xFF1D, 0xE238, 0x7F, 0xFF]),
    _ => d.next() as u16,
  }
}

fn random(id: u32) -> LayoutSpec {
  let d = &mut Dice::new(u64::from(id));
  let mut l = LayoutSpec::empty(id);
  l.alt_gr = d.now(60);
  let mut codes = vec![Code::Unidentified(Native::Windows(0)), Code::Unidentified(Native::Windows(0x7F))];
  for vk in KEYS.map(usize::from) {
    if d.now(85) {
      let scan = any_scan(d);
      l.scan_of_vk[vk] = scan;
      codes.push(lookups::code(scan.into()));
      if let Some(page) = page(scan) {
        l.vk_of_scan[page][usize::from(scan & 0xFF)] = if d.now(60) { vk as u16 } else { d.of(&KEYS) };
      }
    }
    if d.now(35) {
      l.non_char[vk] = Some(any_named(d));
    }
    if d.now(8) {
      l.numlock_on.insert(vk as u8, any_key(d));
    }
    if d.now(8) {
      l.numlock_off.insert(vk as u8, any_key(d));
    }
  }
  for _ in 0..24 {
    let (page, at) = (d.below(3), d.below(256));
    l.vk_of_scan[page][at] = if d.now(80) { d.of(&KEYS) } else { d.next() as u16 };
  }
  for set in 0..16 {
    let often = if matches!(set, 0 | 1 | 2 | 6 | 8) { 50 } else { 12 };
    for c in &codes {
      if d.now(often) {
        l.keys[set].insert(*c, any_key(d));
      }
    }
  }
  l
}

/// All layouts. Those at the front are small, so that a call on them is quick.
pub struct Layouts {
  pub empty: Arc<Layout>,
  pub plain: Arc<Layout>,
  pub accent: Arc<Layout>,
  pub odd: Arc<Layout>,
  pub full: Arc<Layout>,
  pub us: Arc<Layout>,
  pub random: Vec<Arc<Layout>>,
}

/// Random layouts at a time, and the id of the first one.
const RANDOM: u32 = 16;
const FIRST_RANDOM: u32 = 1 << 30;

impl Layouts {
  pub fn new() -> Self {
    Layouts::batch(0)
  }

  /// Each batch has random layouts of its own.
  pub fn batch(n: u32) -> Self {
    let numbers = RANDOM * n..RANDOM * (n + 1);
    let recorded = Recording::read(include_str!("../../oracle/recordings/layout-us.txt")).expect("the recording");
    Layouts {
      empty: Layout::new("empty", LayoutSpec::empty(1)),
      plain: Layout::new("plain", common(2)),
      accent: Layout::new("accent", accent(3)),
      odd: Layout::new("odd", odd(4)),
      full: Layout::new("full", full(5)),
      us: Layout::new("us", recorded[0].prepare(6)),
      random: numbers.map(|i| Layout::new(&format!("random-{i}"), random(FIRST_RANDOM + i))).collect(),
    }
  }

  pub fn all(&self) -> Vec<Arc<Layout>> {
    let some = [&self.empty, &self.plain, &self.accent, &self.odd, &self.full, &self.us];
    some.into_iter().chain(&self.random).cloned().collect()
  }
}

#[cfg(test)]
mod tests {
  use super::*;

  #[test]
  fn blocks_are_small_and_ids_differ() {
    let all = Layouts::new().all();
    for (i, l) in all.iter().enumerate() {
      assert!(all[..i].iter().all(|m| m.maps.id != l.maps.id && m.block != l.block), "{}", l.name);
      assert!(l.block.len() < if l.name == "us" { 40_000 } else { 9_000 }, "{} {}", l.name, l.block.len());
    }
    assert!(all.iter().filter(|l| l.maps.alt_gr).count() >= 6);
  }
}
