//! tao's keys. The cases of `KeyCode` and `Key` that stand for one key each are numbers with tao's names, and so they are written and matched:
//! `KeyCode::Digit1`, `NamedKey::Enter`.
use crate::Text;
use std::fmt;

/// A key code that the system gives a key.
#[derive(Clone, Copy, PartialEq, Eq, Hash)]
pub enum NativeKeyCode {
  /// None.
  Unidentified,
  /// A scan code, with E000 added where the key is extended.
  Windows(u16),
  /// A layout block may hold one.
  MacOS(u16),
  /// A layout block may hold one.
  Gtk(u16),
  /// A layout block may hold one.
  Android(i32),
}

impl NativeKeyCode {
  /// The native code of a kind and a value (docs/AREAS.md).
  pub fn from_numbers(kind: u32, value: u32) -> Option<NativeKeyCode> {
    let small = || u16::try_from(value).ok();
    match kind {
      0 if value == 0 => Some(NativeKeyCode::Unidentified),
      1 => small().map(NativeKeyCode::Windows),
      2 => small().map(NativeKeyCode::MacOS),
      3 => small().map(NativeKeyCode::Gtk),
      4 => Some(NativeKeyCode::Android(value as i32)),
      _ => None,
    }
  }

  /// Its kind and its value.
  pub fn numbers(self) -> (u32, u32) {
    match self {
      NativeKeyCode::Unidentified => (0, 0),
      NativeKeyCode::Windows(value) => (1, value.into()),
      NativeKeyCode::MacOS(value) => (2, value.into()),
      NativeKeyCode::Gtk(value) => (3, value.into()),
      NativeKeyCode::Android(value) => (4, value as u32),
    }
  }
}

/// Its kind in decimal and its value in hexadecimal.
impl fmt::Display for NativeKeyCode {
  fn fmt(&self, f: &mut fmt::Formatter<'_>) -> fmt::Result {
    let (kind, value) = self.numbers();
    write!(f, "{kind}:{value:x}")
  }
}

impl fmt::Debug for NativeKeyCode {
  fn fmt(&self, f: &mut fmt::Formatter<'_>) -> fmt::Result {
    match self {
      NativeKeyCode::Unidentified => f.write_str("Unidentified"),
      NativeKeyCode::Windows(value) => write!(f, "Windows(0x{value:X})"),
      NativeKeyCode::MacOS(value) => write!(f, "MacOS(0x{value:X})"),
      NativeKeyCode::Gtk(value) => write!(f, "Gtk(0x{value:X})"),
      NativeKeyCode::Android(value) => write!(f, "Android(0x{value:X})"),
    }
  }
}

/// A case of tao's `KeyCode` but the unidentified one: 1 to 194.
#[derive(Clone, Copy, PartialEq, Eq, PartialOrd, Ord, Hash)]
pub struct KeyCode(u16);

/// A case of tao's `Key` that stands for one key: 3 to 307.
#[derive(Clone, Copy, PartialEq, Eq, PartialOrd, Ord, Hash)]
pub struct NamedKey(u16);

/// The constants of a type, its names, and the way from a number.
macro_rules! numbered {
  ($type:ident, $names:ident $($number:literal $name:ident)*) => {
    const $names: &[(u16, &str)] = &[$(($number, stringify!($name))),*];

    #[allow(non_upper_case_globals)]
    impl $type {
      $(
        #[doc = concat!("Number ", $number, ".")]
        pub const $name: $type = $type::unchecked($number);
      )*

      /// Its place in tao's enum.
      pub const fn number(self) -> u16 {
        self.place()
      }

      /// tao's name.
      pub const fn name(self) -> &'static str {
        $names[(self.place() - $names[0].0) as usize].1
      }

      /// The one at a place, if there is one.
      pub const fn from_number(number: u32) -> Option<$type> {
        let (first, after) = ($names[0].0 as u32, $names[0].0 as u32 + $names.len() as u32);
        if first <= number && number < after {
          return Some($type::unchecked(number as u16));
        }
        None
      }
    }

    impl std::fmt::Debug for $type {
      fn fmt(&self, f: &mut std::fmt::Formatter<'_>) -> std::fmt::Result {
        f.write_str(self.name())
      }
    }

    impl std::fmt::Display for $type {
      fn fmt(&self, f: &mut std::fmt::Formatter<'_>) -> std::fmt::Result {
        f.write_str(self.name())
      }
    }
  };
}
pub(crate) use numbered;

impl KeyCode {
  pub(crate) const fn unchecked(number: u16) -> KeyCode {
    KeyCode(number)
  }

  pub(crate) const fn place(self) -> u16 {
    self.0
  }
}

impl NamedKey {
  pub(crate) const fn unchecked(number: u16) -> NamedKey {
    NamedKey(number)
  }

  pub(crate) const fn place(self) -> u16 {
    self.0
  }
}

/// tao's `KeyCode`: the key on the keyboard, whatever the layout says of it.
#[derive(Clone, Copy, PartialEq, Eq, Hash, Debug)]
pub enum PhysicalKey {
  /// Unidentified, with the code that the system gives it.
  Unidentified(NativeKeyCode),
  /// One of tao's.
  Code(KeyCode),
}

impl PhysicalKey {
  pub(crate) fn from_fields(fields: &[u32]) -> Option<PhysicalKey> {
    match *fields {
      [0, kind, value] => NativeKeyCode::from_numbers(kind, value).map(PhysicalKey::Unidentified),
      [number, 0, 0] => KeyCode::from_number(number).map(PhysicalKey::Code),
      _ => None,
    }
  }
}

impl fmt::Display for PhysicalKey {
  fn fmt(&self, f: &mut fmt::Formatter<'_>) -> fmt::Result {
    match self {
      PhysicalKey::Unidentified(native) => write!(f, "Unidentified {native}"),
      PhysicalKey::Code(code) => f.write_str(code.name()),
    }
  }
}

/// tao's `Key`: what the key means in its layout.
#[derive(Clone, Copy, PartialEq, Eq, Hash, Debug)]
pub enum Key {
  /// A character, or a few.
  Character(Text),
  /// None that is known, with the code that the system gives the key, if it does.
  Unidentified(NativeKeyCode),
  /// A dead key, with its character if it has one.
  Dead(Option<char>),
  /// One of tao's.
  Named(NamedKey),
}

impl Key {
  pub(crate) fn from_fields(fields: &[u32], character: Option<Text>) -> Option<Key> {
    match (fields, character) {
      (&[0, 0, 0], Some(text)) => Some(Key::Character(text)),
      (&[1, kind, value], None) => NativeKeyCode::from_numbers(kind, value).map(Key::Unidentified),
      (&[2, 0, 0], None) => Some(Key::Dead(None)),
      (&[2, 1, dead], None) => char::from_u32(dead).map(|c| Key::Dead(Some(c))),
      (&[number, 0, 0], None) => NamedKey::from_number(number).map(Key::Named),
      _ => None,
    }
  }
}

impl fmt::Display for Key {
  fn fmt(&self, f: &mut fmt::Formatter<'_>) -> fmt::Result {
    match self {
      Key::Character(text) => write!(f, "\"{text}\""),
      Key::Unidentified(native) => write!(f, "Unidentified {native}"),
      Key::Dead(None) => f.write_str("Dead"),
      Key::Dead(Some(c)) => write!(f, "Dead {:04x}", u32::from(*c)),
      Key::Named(key) => f.write_str(key.name()),
    }
  }
}
