//! Numbers and names of keys: crates/station/data/names, which is read from tao's enums.
use mahjonglarch::*;

fn names() -> (Vec<&'static str>, Vec<&'static str>) {
  let mut codes: Vec<_> = include_str!("../../../crates/station/data/names").lines().collect();
  let keys = codes.split_off(195);
  (codes, keys)
}

#[test]
fn names_are_those_of_tao() {
  let (codes, keys) = names();
  assert_eq!((codes.len(), keys.len()), (195, 308));
  for (number, name) in codes.iter().enumerate().skip(1) {
    let code = KeyCode::from_number(number as u32).unwrap();
    assert_eq!((code.number(), code.name()), (number as u16, *name));
  }
  for (number, name) in keys.iter().enumerate().skip(3) {
    let key = NamedKey::from_number(number as u32).unwrap();
    assert_eq!((key.number(), key.name()), (number as u16, *name));
  }
}

#[test]
fn numbers_without_a_name() {
  for number in [0, 195, 65_537, u32::MAX] {
    assert_eq!(KeyCode::from_number(number), None);
  }
  for number in [0, 1, 2, 308, 65_540, u32::MAX] {
    assert_eq!(NamedKey::from_number(number), None);
  }
}

/// A key is matched by its name, as in tao.
#[test]
fn matched_by_name() {
  let place = |code| match code {
    KeyCode::Digit1 => 7,
    KeyCode::F35 => 194,
    _ => 0,
  };
  assert_eq!((place(KeyCode::Digit1), place(KeyCode::F35), place(KeyCode::Enter)), (7, 194, 0));
  assert!(matches!(NamedKey::from_number(16), Some(NamedKey::Enter)));
}
