//! Blocks written by hand, and blocks of every size around the largest.
use super::Case;
use crate::{
  layouts::Layout,
  script::{lparam, message, state, up, Body, Bytes, Odd, Token},
};
use areas::block;
use kbtypes::{Code, Key, LayoutSpec, Native};

/// An entry of a list, as docs/AREAS.md has it.
#[derive(Clone)]
struct Row {
  list: usize,
  key: u64,
  number: u16,
  second: u8,
  third: u32,
  text: Vec<u8>,
}

/// Writes a block by hand; nothing is checked.
fn by_hand(rows: &[Row]) -> Vec<u8> {
  let mut lists = vec![(0_u16, vec![]); 18];
  for r in rows {
    let (count, bytes) = &mut lists[r.list];
    *count += 1;
    bytes.extend(r.key.to_le_bytes());
    bytes.extend(r.number.to_le_bytes());
    bytes.extend([r.second, r.text.len() as u8]);
    bytes.extend(r.third.to_le_bytes());
    bytes.extend(&r.text);
  }
  let mut out = vec![0; 2634];
  for (j, (count, bytes)) in lists.iter().enumerate() {
    out[2 + 2 * j..4 + 2 * j].copy_from_slice(&count.to_le_bytes());
    out[38 + 2 * j..40 + 2 * j].copy_from_slice(&(bytes.len() as u16).to_le_bytes());
  }
  lists.iter().for_each(|l| out.extend(&l.1));
  // the key 1, so that something is found
  out[586 + 2 * 0x31] = 0x02;
  out[1098 + 2 * 0x02] = 0x31;
  out
}

fn blocks_by_hand() -> Vec<(String, Vec<u8>, bool)> {
  let digit1 = Code::Named(kbtypes::CODE_NAMES.iter().position(|n| *n == "Digit1").unwrap() as u16);
  let Code::Named(place) = digit1 else { unreachable!() };
  let own = u64::from(place) << 40;
  let text = |list, key, t: &[u8]| Row { list, key, number: 0, second: 0, third: 0, text: t.to_vec() };
  let value = |number, second, third| Row { list: 2, key: own, number, second, third, text: vec![] };
  let mut all = vec![];
  let mut add = |name: &str, rows: &[Row], fine| all.push((name.to_string(), by_hand(rows), fine));
  for (n, fine) in [(0, false), (1, true), (2, true), (23, true), (24, true), (25, false), (48, false), (255, false)] {
    for list in [0, 1, 2, 17] {
      add(
        &format!("a text of {n} bytes in list {list}"),
        &[text(list, if list < 2 { 0x31 } else { own }, &vec![b'x'; n])],
        fine,
      );
    }
  }
  let utf8: [(&[u8], bool); 18] = [
    (&[0x00], true),
    (&[0x7F], true),
    (&[0x80], false),
    (&[0xC1, 0xBF], false),
    (&[0xC2, 0x80], true),
    (&[0xC2], false),
    (&[0xE0, 0x9F, 0xBF], false),
    (&[0xE0, 0xA0, 0x80], true),
    (&[0xED, 0x9F, 0xBF], true),
    (&[0xED, 0xA0, 0x80], false),
    (&[0xEE, 0x80, 0x80], true),
    (&[0xF0, 0x8F, 0xBF, 0xBF], false),
    (&[0xF0, 0x90, 0x80, 0x80], true),
    (&[0xF4, 0x8F, 0xBF, 0xBF], true),
    (&[0xF4, 0x90, 0x80, 0x80], false),
    (&[0xF5, 0x80, 0x80, 0x80], false),
    (&[b'a', 0xE2, 0x82], false),
    (&[0xE2, 0x82, 0xAC, b'a'], true),
  ];
  for (bytes, fine) in utf8 {
    add(&format!("text {bytes:X?}"), &[text(2, own, bytes)], fine);
  }
  // ascending keys
  for (a, b, fine) in [(own, own, false), (own, own - (1 << 40), false), (own - (1 << 40), own, true), (0, own, true)] {
    add(&format!("keys {a:X}, {b:X}"), &[text(2, a, b"a"), text(2, b, b"b")], fine);
  }
  for (a, b, fine) in
    [(0x31, 0x31, false), (0x31, 0x30, false), (0x30, 0x31, true), (0, 0xFF, true), (0x31, 0x100, false)]
  {
    add(&format!("virtual keys {a:X}, {b:X}"), &[text(1, a, b"a"), text(1, b, b"b")], fine);
  }
  // keys in range: place, native code
  for (key, fine) in [
    (194 << 40, true),
    (195 << 40, false),
    (1 << 40 | 1, false),
    (1 << 40 | 1 << 32, false),
    (0, true),
    (1, false),
    (1 << 32 | 0xFFFF, true),
    (1 << 32 | 0x1_0000, false),
    (2 << 32 | 0xFFFF, true),
    (3 << 32 | 0x1_0000, false),
    (4 << 32 | 0xFFFF_FFFF, true),
    (5 << 32, false),
    (1 << 48, false),
    (u64::MAX, false),
  ] {
    add(&format!("key {key:X}"), &[text(2, key, b"a")], fine);
  }
  // values in range
  for (number, second, third, fine) in [
    (0, 0, 0, false),
    (1, 0, 0, true),
    (1, 0, 1, false),
    (1, 1, 0xFFFF, true),
    (1, 1, 0x1_0000, false),
    (1, 2, 0xFFFF, true),
    (1, 3, 0x1_0000, false),
    (1, 4, 0xFFFF_FFFF, true),
    (1, 5, 0, false),
    (2, 0, 0, true),
    (2, 0, 1, false),
    (2, 1, 0, true),
    (2, 1, 0xD7FF, true),
    (2, 1, 0xD800, false),
    (2, 1, 0xDFFF, false),
    (2, 1, 0xE000, true),
    (2, 1, 0x10_FFFF, true),
    (2, 1, 0x11_0000, false),
    (2, 2, 0, false),
    (3, 0, 0, true),
    (3, 1, 0, false),
    (3, 0, 1, false),
    (307, 0, 0, true),
    (308, 0, 0, false),
    (65_535, 0, 0, false),
  ] {
    add(&format!("value {number} {second:X} {third:X}"), &[value(number, second, third)], fine);
  }
  add("a named key with a text", &[Row { text: b"a".to_vec(), ..value(3, 0, 0) }], false);
  add("a dead key with a text", &[Row { text: b"a".to_vec(), ..value(2, 0, 0) }], false);
  // the header
  let whole = by_hand(&[text(1, 0x31, b"a"), text(2, own, b"b")]);
  let mut edit = |name: &str, at: usize, byte: u8, fine| {
    let mut bytes = whole.clone();
    bytes[at] = byte;
    all.push((name.to_string(), bytes, fine));
  };
  edit("as it was", 0, 0, true);
  edit("the AltGr flag", 0, 1, true);
  edit("the AltGr flag 2", 0, 2, false);
  edit("the second byte", 1, 1, false);
  edit("a count too small", 4, 0, false);
  edit("a count too large", 4, 2, false);
  edit("a length too small", 40, 16, false);
  edit("a length too large", 40, 18, false);
  edit("an empty list with a length", 72, 1, false);
  for (place, fine) in [(1, false), (2, false), (3, true)] {
    edit(&format!("non-character key {place}"), 74, place, fine);
  }
  for (low, fine) in [(0x33, true), (0x34, false)] {
    let mut bytes = whole.clone();
    bytes[74..76].copy_from_slice(&[low, 1]);
    all.push((format!("non-character key 1{low:X}"), bytes, fine));
  }
  all
}

/// Maps whose block has so many bytes, which is more than 62,000.
fn large(id: u32, bytes: usize) -> LayoutSpec {
  let mut l = LayoutSpec::empty(id);
  l.scan_of_vk[0x31] = 0x02;
  l.vk_of_scan[0][0x02] = 0x31;
  let mut left = bytes - block::HEADER;
  let mut entry = |list: usize, n: usize, length: usize| {
    let code = Code::Unidentified(Native::Android(n as i32));
    l.keys[list].insert(code, Key::Character("x".repeat(length).into()));
  };
  let mut n = 0;
  while left > 2 * 40 {
    entry(n % 16, n, 24);
    left -= 40;
    n += 1;
  }
  // 41 to 80 bytes are left: two entries
  entry(0, n, left / 2 - 16);
  entry(15, n + 1, left - left / 2 - 16);
  l
}

/// The last entry's text has one byte more.
fn longer(block: &[u8]) -> Vec<u8> {
  let mut out = block.to_vec();
  let last = u16::from_le_bytes([block[72], block[73]]);
  let mut at = block.len() - usize::from(last);
  let mut length = at;
  while at < block.len() {
    length = at + 11;
    at += 16 + usize::from(block[length]);
  }
  out[length] += 1;
  out[72..74].copy_from_slice(&(last + 1).to_le_bytes());
  out.push(b'x');
  out
}

pub fn cases() -> Vec<Case> {
  let mut all = vec![];
  let empty = Layout::new("empty", LayoutSpec::empty(1));
  let mut case = |name: String, bytes: Vec<u8>, fine: bool| {
    let mut c = Case::new(name, &empty);
    c.with_keys(&state(&[(0x31, 0x80)]));
    let odd = [Odd::Block(Bytes(bytes.into()))];
    let number = if fine { 0 } else { 3 };
    c.odd(number, Body::Open(message(0x101, 0x31, up(0x02))), &odd).odd(number, Body::Open(message(0x7, 0, 0)), &odd);
    if !fine {
      c.open(0, 0x100, 0x31, lparam(0x02));
    }
    c.odd(number, Body::Finish { token: Token::Latest, peeked: None }, &odd);
    all.push(c);
  };
  for (name, bytes, fine) in blocks_by_hand() {
    case(name, bytes, fine);
  }
  for bytes in [65_534, 65_535, 65_536] {
    let block = block::encode(&large(9, bytes)).expect("it fits");
    assert_eq!(block.len(), bytes);
    let one_more = longer(&block);
    case(format!("a block of {bytes} bytes"), block, true);
    case(format!("a block of {} bytes, one in its last text", bytes + 1), one_more, bytes < 65_536);
  }
  all
}
