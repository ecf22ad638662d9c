//! Between tao's types and those of kbtypes.
use crate::{keyboard as tk, places, platform_impl::platform::keyboard_layout::get_or_insert_str};
use kbtypes as t;
use std::{collections::HashSet, sync::Arc};

pub fn native(n: &tk::NativeKeyCode) -> t::Native {
  match n {
    tk::NativeKeyCode::Unidentified => t::Native::Unidentified,
    tk::NativeKeyCode::Windows(c) => t::Native::Windows(*c),
    tk::NativeKeyCode::MacOS(c) => t::Native::MacOS(*c),
    tk::NativeKeyCode::Gtk(c) => t::Native::Gtk(*c),
    tk::NativeKeyCode::Android(c) => t::Native::Android(*c),
  }
}
pub fn native_back(n: t::Native) -> tk::NativeKeyCode {
  match n {
    t::Native::Unidentified => tk::NativeKeyCode::Unidentified,
    t::Native::Windows(c) => tk::NativeKeyCode::Windows(c),
    t::Native::MacOS(c) => tk::NativeKeyCode::MacOS(c),
    t::Native::Gtk(c) => tk::NativeKeyCode::Gtk(c),
    t::Native::Android(c) => tk::NativeKeyCode::Android(c),
  }
}
pub fn code(c: &tk::KeyCode) -> t::Code {
  match c {
    tk::KeyCode::Unidentified(n) => t::Code::Unidentified(native(n)),
    c => t::Code::Named(places::code_place(c).unwrap()),
  }
}
pub fn code_back(c: t::Code) -> tk::KeyCode {
  match c {
    t::Code::Unidentified(n) => tk::KeyCode::Unidentified(native_back(n)),
    t::Code::Named(p) => places::code_at(p).expect("place in KeyCode"),
  }
}
pub fn key(k: &tk::Key<'static>) -> t::Key {
  match k {
    tk::Key::Character(s) => t::Key::Character(Arc::from(*s)),
    tk::Key::Unidentified(n) => t::Key::Unidentified(native(n)),
    tk::Key::Dead(c) => t::Key::Dead(*c),
    k => t::Key::Named(places::key_place(k).unwrap()),
  }
}
pub fn key_back(strings: &mut HashSet<&'static str>, k: &t::Key) -> tk::Key<'static> {
  match k {
    t::Key::Character(s) => tk::Key::Character(get_or_insert_str(strings, &**s)),
    t::Key::Unidentified(n) => tk::Key::Unidentified(native_back(*n)),
    t::Key::Dead(c) => tk::Key::Dead(*c),
    t::Key::Named(p) => places::key_at(*p).expect("place in Key"),
  }
}
pub fn location(l: tk::KeyLocation) -> t::Location {
  match l {
    tk::KeyLocation::Standard => t::Location::Standard,
    tk::KeyLocation::Left => t::Location::Left,
    tk::KeyLocation::Right => t::Location::Right,
    tk::KeyLocation::Numpad => t::Location::Numpad,
  }
}
pub fn event(m: &crate::platform_impl::platform::keyboard::MessageAsKeyEvent) -> t::Event {
  let e = &m.event;
  t::Event {
    physical_key: code(&e.physical_key),
    logical_key: key(&e.logical_key),
    text: e.text.map(Arc::from),
    location: location(e.location),
    state: match e.state {
      crate::event::ElementState::Pressed => t::ElementState::Pressed,
      crate::event::ElementState::Released => t::ElementState::Released,
    },
    repeat: e.repeat,
    synthetic: m.is_synthetic,
    text_with_all_modifiers: e.platform_specific.text_with_all_modifiers.map(Arc::from),
    key_without_modifiers: key(&e.platform_specific.key_without_modifiers),
  }
}

#[cfg(test)]
mod tests {
  use super::*;
  use std::{
    hash::{Hash, Hasher},
    mem::discriminant,
  };

  /// Takes the number of a case from the hash of its discriminant.
  struct Number(u64);
  impl Hasher for Number {
    fn finish(&self) -> u64 {
      self.0
    }
    fn write(&mut self, bytes: &[u8]) {
      let mut b = [0; 8];
      b.copy_from_slice(bytes);
      self.0 = u64::from_ne_bytes(b);
    }
  }
  fn number<T>(v: &T) -> usize {
    let mut n = Number(u64::MAX);
    discriminant(v).hash(&mut n);
    n.0 as usize
  }

  /// A place is the number that the compiler gives the case, so no case was passed over.
  #[test]
  fn places_are_the_compilers() {
    let none = tk::NativeKeyCode::Unidentified;
    assert_eq!((t::CODE_NAMES.len(), t::KEY_NAMES.len()), (195, 308));
    assert_eq!(number(&tk::KeyCode::Unidentified(none)), 0);
    for p in 1..195 {
      assert_eq!(number(&places::code_at(p).unwrap()), usize::from(p));
    }
    assert_eq!(number(&tk::Key::Character("")), 0);
    assert_eq!(number(&tk::Key::Unidentified(none)), 1);
    assert_eq!(number(&tk::Key::Dead(None)), 2);
    for p in 3..308 {
      assert_eq!(number(&places::key_at(p).unwrap()), usize::from(p));
    }
  }

  #[test]
  fn keys_and_codes_come_back() {
    let mut strings = HashSet::new();
    let natives = [
      t::Native::Unidentified,
      t::Native::Windows(0xE11D),
      t::Native::MacOS(0),
      t::Native::Gtk(0xFFFF),
      t::Native::Android(i32::MIN),
      t::Native::Android(-1),
      t::Native::Android(i32::MAX),
    ];
    let mut keys: Vec<t::Key> = natives.iter().map(|n| t::Key::Unidentified(*n)).collect();
    keys.extend([None, Some('\0'), Some('´'), Some('\u{10FFFF}')].map(t::Key::Dead));
    keys.extend(["a", "\0", "é", "ffi"].map(|s| t::Key::Character(Arc::from(s))));
    keys.extend((3..308).map(t::Key::Named));
    for k in &keys {
      assert_eq!(&key(&key_back(&mut strings, k)), k);
    }
    let codes = natives.iter().map(|n| t::Code::Unidentified(*n)).chain((1..195).map(t::Code::Named));
    for c in codes {
      assert_eq!(code(&code_back(c)), c);
    }
  }
}
