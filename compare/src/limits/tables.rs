//! Break tables written by hand, and tables of every size around the largest.
use super::Case;
use crate::{
  layouts::Layouts,
  script::{lparam, message, Body, Bytes, Odd, Token},
};
use areas::break_table::write;

/// First, last, kind of each.
type Ranges = &'static [(u32, u32, u8)];

/// So many ranges, one scalar value each.
fn ranges(n: u32) -> Vec<(u32, u32, u8)> {
  (0..n).map(|i| 0x300 + 2 * i).map(|c| (c, c, 4)).collect()
}

/// With a byte of it set.
fn edit(mut bytes: Vec<u8>, at: usize, byte: u8) -> Vec<u8> {
  bytes[at] = byte;
  bytes
}

fn by_hand() -> Vec<(String, Vec<u8>, bool)> {
  let mut all = vec![];
  let mut add = |name: &str, bytes: Vec<u8>, fine| all.push((format!("table: {name}"), bytes, fine));
  // one range, two ranges
  let rows: [(Ranges, bool); 35] = [
    (&[], true),
    (&[(0, 0, 0)], true),
    (&[(0, 0x10_FFFF, 29)], true),
    (&[(0x10_FFFF, 0x10_FFFF, 13)], true),
    (&[(0x10_FFFF, 0x11_0000, 0)], false),
    (&[(0x11_0000, 0x11_0000, 0)], false),
    (&[(0, 0xFFFF_FFFF, 0)], false),
    (&[(0xFFFF_FFFF, 0xFFFF_FFFF, 0)], false),
    (&[(0x0100_0031, 0x0100_0031, 4)], false),
    (&[(0xD7FF, 0xD7FF, 4)], true),
    (&[(0xD7FF, 0xD800, 4)], false),
    (&[(0xD800, 0xD800, 4)], false),
    (&[(0xD800, 0xDFFF, 4)], false),
    (&[(0xD7FF, 0xDFFF, 4)], false),
    (&[(0xD800, 0xE000, 4)], false),
    (&[(0xDFFF, 0xE000, 4)], false),
    (&[(0xD7FF, 0xE000, 4)], true),
    (&[(0xE000, 0xE000, 4)], true),
    (&[(0x301, 0x300, 4)], false),
    (&[(0x300, 0x300, 4)], true),
    (&[(0x300, 0x301, 4), (0x302, 0x303, 4)], true),
    (&[(0x300, 0x301, 4), (0x301, 0x303, 4)], false),
    (&[(0x300, 0x303, 4), (0x301, 0x302, 4)], false),
    (&[(0x300, 0x303, 4), (0x300, 0x303, 4)], false),
    (&[(0x302, 0x303, 4), (0x300, 0x301, 4)], false),
    (&[(0xD7FF, 0xE000, 4), (0xE000, 0xE001, 4)], false),
    (&[(0xD7FF, 0xE000, 4), (0xE001, 0xE001, 4)], true),
    (&[(0, 0x10_FFFE, 4), (0x10_FFFF, 0x10_FFFF, 4)], true),
    (&[(0, 0x10_FFFF, 4), (0, 0, 4)], false),
    // ends of which the low half is in order
    (&[(0x1_0300, 0x1_0300, 4), (0x0301, 0x0301, 4)], false),
    (&[(0x0301, 0x1_0300, 4)], true),
    (&[(0x1_0300, 0x0301, 4)], false),
    (&[(0x300, 0x300, 4), (0x302, 0x302, 4), (0x301, 0x301, 4)], false),
    (&[(0x300, 0x300, 4), (0x302, 0x302, 4), (0x303, 0x303, 14)], false),
    (&[(0x300, 0x300, 4), (0x302, 0x302, 4), (0xD800, 0xE000, 4)], false),
  ];
  for (ranges, fine) in rows {
    add(&format!("{ranges:X?}"), write(ranges), fine);
  }
  for kind in 0..=255 {
    add(&format!("kind {kind}"), write(&[(0x300, 0x36F, kind)]), kind < 32 && kind % 16 <= 13);
  }
  // the head
  let own = write(&[(0x300, 0x36F, 4), (0x1_F1E6, 0x1_F1FF, 6)]);
  for at in 0..8 {
    for byte in [0, 1, 2, 3, 9, 0x80, 0xFF] {
      let bytes = edit(own.clone(), at, byte);
      let fine = bytes == own;
      add(&format!("byte {at} is {byte:02X}"), bytes, fine);
    }
  }
  for n in 0..own.len() {
    add(&format!("{n} of its bytes"), own[..n].to_vec(), false);
  }
  for n in [1, 8, 9, 10] {
    add(&format!("{n} bytes more"), [&own[..], &vec![0; n]].concat(), false);
  }
  for n in [1, 7] {
    add(&format!("{n} zeros"), vec![0; n], false);
  }
  add("eight zeros", vec![0; 8], true);
  // 17 bytes, and a number of ranges of which nine times is 9 in 32 bits, and in 64
  add("a number of ranges that wraps", [&[0, 0, 0, 0, 0x39, 0x8E, 0xE3, 0x38][..], &[0; 9]].concat(), false);
  // the largest
  let most = write(&ranges(7280));
  assert_eq!(most.len(), 65_528);
  for n in 1..=8 {
    add(&format!("{} bytes of 7,280 ranges", 65_528 + n), [&most[..], &vec![0; n]].concat(), false);
  }
  add("7,279 ranges", write(&ranges(7279)), true);
  add("the last kind of 7,280 ranges is 14", edit(most.clone(), 65_527, 14), false);
  add("the last of 7,280 ranges ends before it begins", edit(most.clone(), 8 + 8 * 7280 - 4, 0), false);
  add("7,280 ranges", most, true);
  add("7,281 ranges", write(&ranges(7281)), false);
  add("65,536 bytes", vec![0; 65_536], false);
  add("65,537 bytes", vec![0; 65_537], false);
  all
}

/// Each at an open, a finish and an ignored message. Where it is a table, a letter and a mark, and a flag, are typed with it.
pub fn cases(l: &Layouts) -> Vec<Case> {
  let mut all = vec![];
  let more = Some(message(0x102, 0x31, lparam(0x02)));
  let finish = |peeked| Body::Finish { token: Token::Latest, peeked };
  for (name, bytes, fine) in by_hand() {
    let mut c = Case::new(name, &l.plain);
    let odd = [Odd::Table(Bytes(bytes.into()))];
    let number = if fine { 0 } else { 11 };
    c.odd(number, Body::Open(message(0x12, 0, 0)), &odd).odd(number, Body::Open(message(0x104, 0x73, 1)), &odd);
    c.odd(number, Body::Open(message(0x7, 0, 0)), &odd);
    for codes in [[0x65, 0x301], [0x1_F1E6, 0x1_F1FF]] {
      c.odd(number, Body::Open(message(0x100, 0x31, lparam(0x02))), &odd);
      if !fine {
        c.open(0, 0x100, 0x31, lparam(0x02));
      }
      c.odd(number, finish(more), &odd);
      if !fine {
        c.more();
      }
      for (i, code) in codes.into_iter().enumerate() {
        c.open(0, 0x102, code, lparam(0x02));
        let peeked = if i == 0 { more } else { None };
        c.odd(number, finish(peeked), &odd);
        if !fine {
          c.finish(0, peeked);
        }
      }
    }
    all.push(c);
  }
  all
}
