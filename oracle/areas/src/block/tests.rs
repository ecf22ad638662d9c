use super::*;
use crate::dice::Dice;

#[test]
fn maps_come_back() {
  let mut d = Dice(0x9E37_79B9_7F4A_7C15);
  let mut seen = [0; 10];
  for round in 0..2000 {
    let maps = d.maps([0, 1, 5, 40][round % 4]);
    let block = encode(&maps).unwrap();
    assert_eq!(block.len(), size(&maps));
    assert_eq!(decode(maps.id, &block).unwrap(), maps);
    for (code, key) in maps.keys.iter().flatten() {
      if let Code::Unidentified(n) = code {
        seen[usize::from(native_number(*n).0)] += 1;
      }
      match key {
        Key::Unidentified(n) => seen[5 + usize::from(native_number(*n).0)] += 1,
        Key::Character(s) => assert!((1..=24).contains(&s.len())),
        _ => (),
      }
    }
  }
  assert!(seen.iter().all(|n| *n > 1000), "{seen:?}");
}

/// Bytes that pass the check are the block of the maps that they are read as.
#[test]
fn no_two_blocks_for_the_same_maps() {
  let mut d = Dice(0xD1B5_4A32_D192_ED03);
  let mut passed = [0, 0];
  for _ in 0..300 {
    let maps = d.maps(3);
    let block = encode(&maps).unwrap();
    for _ in 0..200 {
      let mut x = block.clone();
      for _ in 0..1 + d.below(2) {
        // most of the edits behind the tables, where the entries are
        let from = if d.yes(4) || x.len() == HEADER { 0 } else { HEADER };
        let at = from + d.below(x.len() - from);
        match d.below(8) {
          0 => drop(x.remove(at)),
          1 => x.insert(at, d.next() as u8),
          2 => x[at] = d.next() as u8,
          3 => x[at] = 0,
          _ => x[at] = x[at].wrapping_add(1),
        }
      }
      let answer = decode(maps.id, &x);
      if let Ok(m) = &answer {
        assert_eq!(encode(m).unwrap(), x);
      }
      passed[usize::from(answer.is_ok())] += 1;
    }
  }
  assert!(passed[0] > 1000 && passed[1] > 1000, "{passed:?}");
}

/// Three entries in list 2 (an unidentified code, a character, a dead key), one in list 0.
fn small() -> Vec<u8> {
  let mut m = LayoutSpec::empty(1);
  m.numlock_on.insert(0x60, Key::Character("0".into()));
  m.keys[0].insert(Code::Unidentified(Native::Windows(0x7F)), Key::Unidentified(Native::Android(-2)));
  m.keys[0].insert(Code::Named(20), Key::Character("é".into()));
  m.keys[0].insert(Code::Named(21), Key::Dead(Some('´')));
  encode(&m).unwrap()
}

/// Where the entries of `small` begin.
const ON: usize = HEADER;
const SET: [usize; 3] = [HEADER + 17, HEADER + 33, HEADER + 51];

#[test]
fn the_bytes_are_those_of_the_page() {
  let x = small();
  assert_eq!(x.len(), HEADER + 17 + 16 + 18 + 16);
  assert_eq!(list_sizes(&x)[..4], [(1, 17), (0, 0), (3, 50), (0, 0)]);
  assert_eq!(x[ON..SET[0]], [0x60, 0, 0, 0, 0, 0, 0, 0, 0, 0, 0, 1, 0, 0, 0, 0, b'0']);
  assert_eq!(x[SET[0]..SET[1]], [0x7F, 0, 0, 0, 1, 0, 0, 0, 1, 0, 4, 0, 0xFE, 0xFF, 0xFF, 0xFF]);
  assert_eq!(x[SET[1]..SET[2]], [0, 0, 0, 0, 0, 20, 0, 0, 0, 0, 0, 2, 0, 0, 0, 0, 0xC3, 0xA9]);
  assert_eq!(x[SET[2]..], [0, 0, 0, 0, 0, 21, 0, 0, 2, 0, 1, 0, 0xB4, 0, 0, 0]);
}

/// Android's codes are ordered by their bits: 0, the highest, the lowest, -1.
#[test]
fn android_ascends_by_bits() {
  let mut m = LayoutSpec::empty(1);
  for v in [-1, 0, i32::MIN, i32::MAX] {
    m.keys[5].insert(Code::Unidentified(Native::Android(v)), Key::Dead(None));
  }
  let x = encode(&m).unwrap();
  let keys: Vec<u32> = (0..4).map(|i| u32::from_le_bytes(x[HEADER + 16 * i..][..4].try_into().unwrap())).collect();
  assert_eq!(keys, [0, 0x7FFF_FFFF, 0x8000_0000, 0xFFFF_FFFF]);
}

#[test]
fn each_condition_refuses() {
  use EntryFault::*;
  let entry = |j, e| Some(Fault::Entry(j, e));
  let rows: &[(usize, u8, Option<Fault>)] = &[
    (0, 1, None),
    (0, 2, Some(Fault::Flag)),
    (1, 1, Some(Fault::SecondByte)),
    // list 0: number of entries, length
    (COUNTS, 0, Some(Fault::Entries(0))),
    (COUNTS, 2, entry(0, Cut)),
    (LENGTHS, 18, Some(Fault::Entries(0))),
    (LENGTHS, 16, entry(0, Cut)),
    (LENGTHS + 1, 1, Some(Fault::Lengths)),
    // a list behind the last entry has a length, or a number of entries, of its own
    (LENGTHS + 34, 1, Some(Fault::Lengths)),
    (COUNTS + 34, 1, entry(17, Cut)),
    // non-character keys: 3 to 307 and 0
    (NON_CHAR + 2, 3, None),
    (NON_CHAR + 2, 2, Some(Fault::NonChar(1))),
    (NON_CHAR + 2, 1, Some(Fault::NonChar(1))),
    (NON_CHAR + 511, 2, Some(Fault::NonChar(255))),
    // tables: anything
    (SCAN_CODES + 1, 0xFF, None),
    (VIRTUAL_KEYS + 1535, 0xFF, None),
    // a Num Lock list's key
    (ON, 0xFF, None),
    (ON + 1, 1, entry(0, Key)),
    (ON + 7, 1, entry(0, Key)),
    // key codes
    (SET[0] + 4, 0, entry(2, Key)),
    (SET[0] + 4, 3, None),
    (SET[0] + 4, 5, entry(2, Key)),
    (SET[0] + 2, 1, entry(2, Key)),
    (SET[1], 1, entry(2, Key)),
    (SET[1] + 4, 1, entry(2, Key)),
    (SET[1] + 5, 21, entry(2, Order)),
    (SET[1] + 5, 22, entry(2, Order)),
    (SET[2] + 5, 194, None),
    (SET[2] + 5, 195, entry(2, Key)),
    (SET[2] + 6, 1, entry(2, Key)),
    // values: numbers and their second and third fields
    (SET[0] + 10, 5, entry(2, Value)),
    (SET[0] + 10, 3, entry(2, Value)),
    (SET[0] + 15, 0, None),
    (SET[1] + 10, 1, entry(2, Value)),
    (SET[1] + 12, 1, entry(2, Value)),
    (SET[2] + 10, 0, entry(2, Value)),
    (SET[2] + 10, 2, entry(2, Value)),
    (SET[2] + 13, 0xD7, None),
    (SET[2] + 13, 0xD8, entry(2, Value)),
    (SET[2] + 13, 0xDF, entry(2, Value)),
    (SET[2] + 13, 0xE0, None),
    (SET[2] + 14, 0x10, None),
    (SET[2] + 14, 0x11, entry(2, Value)),
    (SET[2] + 8, 1, None),
    (SET[2] + 8, 3, entry(2, Value)),
    // texts
    (SET[1] + 8, 2, entry(2, Length)),
    (SET[1] + 8, 3, entry(2, Length)),
    (SET[0] + 11, 2, entry(2, Length)),
    (SET[1] + 11, 0, entry(2, Length)),
    (SET[2] + 11, 1, entry(2, Cut)),
    (SET[1] + 16, 0xC0, entry(2, Text)),
    (SET[1] + 17, 0x41, entry(2, Text)),
  ];
  assert!(decode(1, &small()).is_ok());
  for (at, byte, fault) in rows {
    let mut x = small();
    assert_ne!(x[*at], *byte);
    x[*at] = *byte;
    assert_eq!(decode(1, &x).err(), *fault, "byte {at} to {byte:02X}");
  }
}

#[test]
fn named_keys_end_at_307() {
  let mut m = LayoutSpec::empty(1);
  m.keys[15].insert(Code::Named(194), Key::Named(307));
  m.non_char[9] = Some(307);
  let x = encode(&m).unwrap();
  assert_eq!(decode(1, &x).unwrap(), m);
  for (at, fault) in [(HEADER + 8, Fault::Entry(17, EntryFault::Value)), (NON_CHAR + 18, Fault::NonChar(9))] {
    let mut y = x.clone();
    y[at] = (308_u16 & 0xFF) as u8;
    assert_eq!(decode(1, &y), Err(fault));
  }
}

#[test]
fn texts_have_1_to_24_bytes() {
  for (text, fault) in [
    (String::new(), Some(EntryFault::Length)),
    ("a".repeat(24), None),
    ("\u{10FFFF}".repeat(6), None),
    ("\0".into(), None),
    ("a".repeat(25), Some(EntryFault::Length)),
    ("a".repeat(255), Some(EntryFault::Length)),
    ("a".repeat(256), Some(EntryFault::Length)),
  ] {
    let mut m = LayoutSpec::empty(1);
    m.numlock_off.insert(0, Key::Character(text.into()));
    assert_eq!(encode(&m).err(), fault.map(|e| Fault::Entry(1, e)));
  }
}

#[test]
fn lengths_at_the_limits() {
  assert_eq!(encode(&LayoutSpec::empty(1)).unwrap(), vec![0; HEADER]);
  assert_eq!(decode(1, &vec![0; HEADER - 1]), Err(Fault::TooShort));
  assert_eq!(decode(1, &vec![0; HEADER + 1]), Err(Fault::Lengths));
  assert_eq!(decode(1, &[]), Err(Fault::TooShort));
  // 62,902 bytes of entries: 1,572 of 40 bytes and one of 22
  let mut m = LayoutSpec::empty(1);
  for i in 0..1572 {
    let code = Code::Unidentified(Native::Windows(i as u16));
    m.keys[i % 16].insert(code, Key::Character("a".repeat(24).into()));
  }
  m.keys[3].insert(Code::Named(1), Key::Character("abcdef".into()));
  let x = encode(&m).unwrap();
  assert_eq!(x.len(), MOST);
  assert_eq!(decode(1, &x).unwrap(), m);
  m.keys[3].insert(Code::Named(1), Key::Character("abcdefg".into()));
  assert_eq!(encode(&m), Err(Fault::TooLong));
  assert_eq!(decode(1, &[&x[..], &[0]].concat()), Err(Fault::TooLong));
}
