use super::*;
use crate::dice::Dice;
use std::{collections::BTreeSet, fs, path::Path};

fn unicode() -> BreakTable {
  decode(include_bytes!("../../../../tables/unicode-15.0.breaks")).unwrap()
}

fn text(codes: &[u32]) -> String {
  codes.iter().map(|c| char::from_u32(*c).unwrap()).collect()
}

/// Unicode's own test, as crates/graphemes has it: the texts, and the same with their marks, behind them how many there are.
#[test]
fn unicode_s_break_test() {
  let table = unicode();
  assert_eq!((table.ranges.len(), encode(&table).unwrap().len()), (1449, 13_049));
  let read = |name: &str| {
    fs::read_to_string(Path::new(env!("CARGO_MANIFEST_DIR")).join("../../crates/graphemes").join(name)).unwrap()
  };
  let (plain, marked) = (read("stdin"), read("stdout"));
  assert_eq!((plain.lines().count(), marked.lines().count()), (602, 603));
  assert_eq!(marked.lines().last(), Some("602 texts, several_pieces agrees"));
  let mut reached = BTreeSet::new();
  for (plain, marked) in plain.lines().zip(marked.lines()) {
    let codes: Vec<u32> = plain.split(' ').map(|c| u32::from_str_radix(c, 16).unwrap()).collect();
    let rules = rules(&table, &text(&codes));
    let mut shown = format!("÷ {:04X}", codes[0]);
    for (rule, code) in rules.iter().zip(&codes[1..]) {
      shown += &format!(" {} {code:04X}", if rule.breaks() { "÷" } else { "×" });
    }
    assert_eq!(shown + " ÷", marked);
    assert_eq!(pieces(&table, &text(&codes)), marked.matches('÷').count() - 1);
    reached.extend(rules);
  }
  assert_eq!(reached.len(), 13);
}

/// What is easily got wrong.
#[test]
fn texts_by_hand() {
  let table = unicode();
  for (codes, count) in [
    (&[][..], 0),
    (&[0x65], 1),
    (&[0x65, 0x301], 1),
    (&[0x301], 1),
    (&[0x0D, 0x0A], 1),
    (&[0x0D, 0x0A, 0x301], 2),
    (&[0x1_F468, 0x200D, 0x1_F469], 1),
    (&[0x1_F468, 0x1_F3FB, 0x200D, 0x1_F469], 1),
    // Extend* holds no ZWJ
    (&[0x1_F468, 0x200D, 0x200D, 0x1_F469], 2),
    (&[0x61, 0x200D, 0x1_F469], 2),
    // a flag and a half, two flags, a flag behind a letter
    (&[0x1_F1E6, 0x1_F1E6, 0x1_F1E6], 2),
    (&[0x1_F1E6, 0x1_F1E6, 0x1_F1E6, 0x1_F1E6], 2),
    (&[0x61, 0x1_F1E6, 0x1_F1E6], 2),
    (&[0x1100, 0x1161, 0x11A8], 1),
    (&[0xAC00, 0x11A8, 0x11A8], 1),
    (&[0xAC01, 0x1161], 2),
    (&[0x0915, 0x094D, 0x0937], 2),
    (&[0x0600, 0x61], 1),
    (&[0x0600, 0x0A], 2),
    (&[0x0915, 0x0903], 1),
  ] {
    assert_eq!(pieces(&table, &text(codes)), count, "{codes:X?}");
    assert_eq!(pieces(&BreakTable::default(), &text(codes)), codes.len());
  }
  // an Extend that is a pictograph, and left sides across an earlier break
  let odd =
    decode(&write(&[(0x61, 0x61, 20), (0x62, 0x62, 5), (0x63, 0x63, 16), (0x64, 0x64, 3), (0x65, 0x65, 4)])).unwrap();
  assert_eq!(pieces(&odd, "abc"), 1);
  assert_eq!(pieces(&odd, "dabc"), 2);
  assert_eq!(pieces(&odd, "deabc"), 2);
  assert_eq!(pieces(&odd, "debc"), 3);
  assert_eq!(pieces(&odd, "caaebc"), 1);
}

/// The ends of each condition, each in a table of its own.
#[test]
fn ends() {
  use Fault::*;
  for (ranges, fault) in [
    (&[][..], None),
    (&[(0, 0, 0)], None),
    (&[(0, 0x10_FFFF, 29)], None),
    (&[(0x10_FFFF, 0x10_FFFF, 13)], None),
    (&[(0x10_FFFF, 0x11_0000, 0)], Some(Scalar(0))),
    (&[(0, u32::MAX, 0)], Some(Scalar(0))),
    (&[(0xD7FF, 0xE000, 4)], None),
    (&[(0xD7FF, 0xD800, 4)], Some(Scalar(0))),
    (&[(0xDFFF, 0xE000, 4)], Some(Scalar(0))),
    (&[(0xD800, 0xDFFF, 4)], Some(Scalar(0))),
    (&[(5, 4, 0)], Some(Backwards(0))),
    (&[(5, 5, 14)], Some(Class(0))),
    (&[(5, 5, 15)], Some(Class(0))),
    (&[(5, 5, 16)], None),
    (&[(5, 5, 30)], Some(Class(0))),
    (&[(5, 5, 32)], Some(Mark(0))),
    (&[(5, 5, 255)], Some(Class(0))),
    (&[(5, 5, 240)], Some(Mark(0))),
    (&[(5, 6, 1), (7, 7, 1)], None),
    (&[(5, 6, 1), (6, 7, 1)], Some(Order(1))),
    (&[(5, 9, 1), (6, 7, 1)], Some(Order(1))),
    (&[(5, 6, 1), (3, 4, 1)], Some(Order(1))),
    (&[(5, 6, 1), (5, 6, 1)], Some(Order(1))),
  ] {
    assert_eq!(decode(&write(ranges)).err(), fault, "{ranges:X?}");
  }
  let ranges: Vec<(u32, u32, u8)> = (0..=RANGES as u32).map(|i| (2 * i, 2 * i, 4)).collect();
  let most = write(&ranges[..RANGES]);
  assert_eq!((RANGES, most.len()), (7280, 65_528));
  assert_eq!(decode(&most).unwrap().ranges.len(), RANGES);
  assert_eq!(decode(&write(&ranges)), Err(TooLong));
  assert_eq!(decode(&[&most[..], &[0; 8]].concat()), Err(Length));
  assert_eq!(decode(&[&most[..], &[0; 9]].concat()), Err(TooLong));
  for n in 0..HEAD {
    assert_eq!(decode(&vec![0; n]), Err(TooShort));
  }
  for at in 0..4 {
    let mut form = write(&[]);
    form[at] = 1;
    assert_eq!(decode(&form), Err(Form));
  }
}

#[test]
fn to_bytes_and_back() {
  let mut d = Dice(11);
  let mut classes = BTreeSet::new();
  for _ in 0..2000 {
    let n = d.below(40);
    let table = d.table(n);
    let bytes = encode(&table).unwrap();
    assert_eq!(bytes.len(), HEAD + RANGE * table.ranges.len());
    assert_eq!(decode(&bytes).unwrap(), table);
    classes.extend(table.ranges.iter().map(|r| (r.class, r.pictograph)));
  }
  assert_eq!(classes.len(), 28);
}

/// Every byte of small tables with every value: what is still a table is the table of what it is read as, and what is
/// none has a fault that the bytes show.
#[test]
fn damaged() {
  let mut d = Dice(12);
  let (mut fine, mut bad) = (0, 0);
  let mut all: Vec<BreakTable> = (0..12).map(|n| d.table(n)).collect();
  all.push(decode(&write(&[(0x0A, 0x0A, 2), (0x0D, 0x0D, 1), (0x300, 0x36F, 4), (0xD7FF, 0xE000, 16)])).unwrap());
  for table in all {
    let bytes = encode(&table).unwrap();
    for at in 0..bytes.len() {
      for byte in 0..=255 {
        let mut now = bytes.clone();
        now[at] = byte;
        let plain = passes(&now);
        match decode(&now) {
          Ok(read) => {
            fine += 1;
            assert!(plain);
            assert_eq!(encode(&read).unwrap(), now);
          }
          Err(_) => {
            bad += 1;
            assert!(!plain);
          }
        }
      }
    }
    for length in 0..bytes.len() {
      assert!(decode(&bytes[..length]).is_err());
    }
    assert_eq!(decode(&[&bytes[..], &[0]].concat()), Err(Fault::Length));
  }
  assert!(fine > 10_000 && bad > 50_000, "{fine} {bad}");
}

/// Question 11 once more, as one condition on the columns.
fn passes(bytes: &[u8]) -> bool {
  let word = |at: usize| u32::from_le_bytes(bytes[at..at + 4].try_into().unwrap());
  let scalar = |n: u32| n < 0xD800 || (0xE000..0x11_0000).contains(&n);
  if bytes.len() < 8 || bytes.len() > 65_536 || word(0) != 0 || bytes.len() as u64 != 8 + 9 * u64::from(word(4)) {
    return false;
  }
  let n = word(4) as usize;
  let (first, last) = (|i: usize| word(8 + 4 * i), |i: usize| word(8 + 4 * n + 4 * i));
  (0..n).all(|i| scalar(first(i)) && scalar(last(i)) && first(i) <= last(i))
    && (1..n).all(|i| last(i - 1) < first(i))
    && bytes[8 + 8 * n..].iter().all(|k| k & 15 <= 13 && *k < 32)
}
