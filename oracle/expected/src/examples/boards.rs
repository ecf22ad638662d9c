//! Keyboards: small layouts with few keys, and states of their keys.
use kbtypes::{Code, Key, LayoutSpec, Native, CODE_NAMES, KEY_NAMES};
use std::sync::Arc;

/// A layout and the state of the keys, under the name that it has in the file.
#[derive(Clone)]
pub struct Board {
  pub name: &'static str,
  pub layout_name: &'static str,
  pub layout: Arc<LayoutSpec>,
  /// Virtual key and byte, rising; every other byte is 0.
  pub bytes: &'static [(u8, u8)],
}

impl Board {
  pub fn state(&self) -> Arc<[u8; 256]> {
    let mut state = [0; 256];
    self.bytes.iter().for_each(|(vk, b)| state[usize::from(*vk)] = *b);
    Arc::new(state)
  }
}

fn place(names: &[&str], name: &str) -> u16 {
  names.iter().position(|n| *n == name).unwrap_or_else(|| panic!("{name}")) as u16
}
pub fn named(name: &str) -> Key {
  Key::Named(place(KEY_NAMES, name))
}
pub fn code(name: &str) -> Code {
  Code::Named(place(CODE_NAMES, name))
}
pub fn text(t: &str) -> Key {
  Key::Character(t.into())
}

/// The virtual key of a scan code, and its non-character key.
pub fn key(maps: &mut LayoutSpec, vk: u8, scan: u16, non_char: Option<&str>) {
  maps.scan_of_vk[usize::from(vk)] = scan;
  let page = match scan >> 8 {
    0 => 0,
    page => usize::from(page) - 0xDF,
  };
  maps.vk_of_scan[page][usize::from(scan & 0xFF)] = vk.into();
  maps.non_char[usize::from(vk)] = non_char.map(|n| place(KEY_NAMES, n));
}

/// What `us` and `german` have in common: Enter, F4, modifiers, the numpad's 0, the keys 1 and E, VK_CANCEL.
fn common(id: u32) -> LayoutSpec {
  let mut l = LayoutSpec::empty(id);
  key(&mut l, 0x03, 0xE046, None);
  key(&mut l, 0x0D, 0x1C, Some("Enter"));
  key(&mut l, 0x11, 0x1D, Some("Control"));
  key(&mut l, 0x12, 0x38, Some("Alt"));
  key(&mut l, 0x14, 0x3A, Some("CapsLock"));
  key(&mut l, 0x31, 0x02, None);
  key(&mut l, 0x45, 0x12, None);
  key(&mut l, 0x60, 0x52, None);
  key(&mut l, 0x73, 0x3E, Some("F4"));
  key(&mut l, 0xA0, 0x2A, Some("Shift"));
  key(&mut l, 0xA2, 0x1D, Some("Control"));
  key(&mut l, 0xA5, 0xE038, Some("Alt"));
  l.numlock_on.insert(0x60, text("0"));
  l.numlock_off.insert(0x60, named("Insert"));
  for (set, one, e) in [(0, "1", "e"), (1, "!", "E"), (8, "1", "E")] {
    l.keys[set].insert(code("Digit1"), text(one));
    l.keys[set].insert(code("KeyE"), text(e));
  }
  l
}

fn us() -> LayoutSpec {
  common(101)
}

/// With the AltGr flag; an acute accent, and a dead key that has no character.
fn german() -> LayoutSpec {
  let mut l = common(102);
  l.alt_gr = true;
  key(&mut l, 0xDD, 0x0D, None);
  key(&mut l, 0xDE, 0x28, None);
  l.keys[0].insert(code("Equal"), Key::Dead(Some('´')));
  l.keys[0].insert(code("Quote"), Key::Dead(None));
  for set in [0, 6] {
    l.keys[set].insert(code("AltRight"), named("AltGraph"));
  }
  l.keys[6].insert(code("KeyE"), text("€"));
  l
}

/// What no common keyboard has: an unidentified key in a list, the code E11C, an entry for an unlisted code, an entry
/// for VK_MENU.
fn odd() -> LayoutSpec {
  let mut l = LayoutSpec::empty(103);
  key(&mut l, 0x0D, 0xE11C, Some("Enter"));
  key(&mut l, 0x12, 0x38, Some("Alt"));
  key(&mut l, 0x31, 0x02, None);
  key(&mut l, 0xB3, 0xE022, Some("MediaPlayPause"));
  l.numlock_off.insert(0x12, text("m"));
  l.numlock_off.insert(0x31, Key::Unidentified(Native::Windows(0x7F)));
  l.keys[0].insert(Code::Unidentified(Native::Windows(0x7F)), text("ß"));
  l.keys[0].insert(code("Digit1"), text("1"));
  l
}

/// Another code for the virtual key B3 than in `odd`, on the numpad.
fn moved() -> LayoutSpec {
  let mut l = LayoutSpec::empty(104);
  key(&mut l, 0xB3, 0xE024, Some("MediaPlayPause"));
  l.vk_of_scan[1][0x24] = 0x60;
  l
}

const CONTROL: (u8, u8) = (0xA2, 0x80);

/// All keyboards of the examples, those with one layout together.
pub struct Boards {
  pub us: Board,
  pub us_control: Board,
  pub us_shift: Board,
  pub us_busy: Board,
  pub us_num_lock: Board,
  pub us_cancel: Board,
  pub german: Board,
  pub german_alt_gr: Board,
  pub german_typing: Board,
  pub odd: Board,
  pub moved: Board,
}

impl Boards {
  pub fn new() -> Self {
    let layouts = [("us_layout", us()), ("german_layout", german()), ("odd_layout", odd()), ("moved_layout", moved())];
    let layouts = layouts.map(|(name, maps)| (name, Arc::new(maps)));
    let board = |name, at: usize, bytes| {
      let (layout_name, layout) = layouts[at].clone();
      Board { name, layout_name, layout, bytes }
    };
    Boards {
      us: board("us", 0, &[]),
      us_control: board("us_control", 0, &[CONTROL]),
      us_shift: board("us_shift", 0, &[(0x10, 0x80), (0x31, 0x80), (0xA0, 0x80)]),
      // Caps Lock is down and on; 1, E, Control and Shift are down, and 07, which has no scan code
      us_busy: board(
        "us_busy",
        0,
        &[(0x07, 0x80), (0x10, 0x80), (0x14, 0x81), (0x31, 0x80), (0x45, 0x80), (0xA0, 0x80), (0xA2, 0x80)],
      ),
      us_num_lock: board("us_num_lock", 0, &[(0x60, 0x80), (0x90, 0x01)]),
      us_cancel: board("us_cancel", 0, &[(0x03, 0x80), (0x11, 0x80), (0xA2, 0x80)]),
      german: board("german", 1, &[]),
      german_alt_gr: board("german_alt_gr", 1, &[(0xA2, 0x80), (0xA5, 0x80)]),
      // the accent's key and that of the other dead key are down
      german_typing: board("german_typing", 1, &[(0xDD, 0x80), (0xDE, 0x80)]),
      odd: board("odd", 2, &[]),
      moved: board("moved", 3, &[]),
    }
  }

  pub fn all(&self) -> [&Board; 11] {
    [
      &self.us,
      &self.us_control,
      &self.us_shift,
      &self.us_busy,
      &self.us_num_lock,
      &self.us_cancel,
      &self.german,
      &self.german_alt_gr,
      &self.german_typing,
      &self.odd,
      &self.moved,
    ]
  }
}
