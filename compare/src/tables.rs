//! The break tables of the scripts, each as ranges for tao's counter and as bytes for the library.
use crate::dice::Dice;
use areas::break_table::{self, write};
use kbtypes::{BreakRange, BreakTable};
use std::sync::{Arc, LazyLock};

/// One table: its ranges, and the bytes that stand for them.
pub struct Table {
  pub name: String,
  pub ranges: Arc<BreakTable>,
  pub bytes: Vec<u8>,
}

impl Table {
  pub fn new(name: &str, ranges: BreakTable) -> Arc<Self> {
    let bytes = break_table::encode(&ranges).unwrap_or_else(|e| panic!("{name}: {e:?}"));
    Arc::new(Table { name: name.into(), ranges: Arc::new(ranges), bytes })
  }

  /// The ranges of bytes that are a table.
  pub fn read(name: &str, bytes: Vec<u8>) -> Option<Arc<Self>> {
    let ranges = Arc::new(break_table::decode(&bytes).ok()?);
    Some(Arc::new(Table { name: name.into(), ranges, bytes }))
  }
}

/// Some of each class, on both sides of the ranges' ends, and some pictographs: what texts are made of, rising.
pub const CODES: [u32; 40] = [
  0x00, 0x0A, 0x0D, 0x1B, 0x31, 0x32, 0x61, 0x65, 0xA9, 0x2FF, 0x300, 0x301, 0x36F, 0x370, 0x600, 0x605, 0x903, 0x915,
  0x937, 0x94D, 0x1100, 0x115F, 0x1160, 0x1161, 0x11A7, 0x11A8, 0x200B, 0x200D, 0xAC00, 0xAC01, 0xD7FF, 0xE000, 0xFFFF,
  0x1_0000, 0x1_F1E6, 0x1_F1FF, 0x1_F3FB, 0x1_F468, 0x1_F469, 0x10_FFFF,
];

/// The small table of the worked examples, and LVT.
const SMALL: [(u32, u32, u8); 15] = [
  (0x0A, 0x0A, 2),
  (0x0D, 0x0D, 1),
  (0x300, 0x36F, 4),
  (0x600, 0x605, 7),
  (0x903, 0x903, 8),
  (0x94D, 0x94D, 4),
  (0x1100, 0x115F, 9),
  (0x1160, 0x11A7, 10),
  (0x11A8, 0x11FF, 11),
  (0x200D, 0x200D, 5),
  (0xAC00, 0xAC00, 12),
  (0xAC01, 0xAC1B, 13),
  (0x1_F1E6, 0x1_F1FF, 6),
  (0x1_F3FB, 0x1_F3FF, 4),
  (0x1_F466, 0x1_F469, 16),
];

/// Ranges around the codes of the texts: of a code alone, or up to the next; any class, any mark.
fn random(number: u32) -> BreakTable {
  let d = &mut Dice::new(u64::from(number) | 1 << 40);
  let mut ranges = vec![];
  // some tables have few classes, so that their runs are long
  let mut few: Vec<u8> = (0..d.of(&[2, 3, 14])).map(|_| d.below(14) as u8).collect();
  if d.now(50) {
    // what GB11 needs
    few.extend([4, 4, 5]);
  }
  let often = d.of(&[30, 70, 95]);
  for (i, code) in CODES.iter().enumerate() {
    if !d.now(often) {
      continue;
    }
    let next = CODES.get(i + 1).map_or(0x10_FFFF, |n| n - 1);
    let next = if (0xD800..0xE000).contains(&next) { 0xD7FF } else { next };
    let last = match d.below(3) {
      0 => *code,
      1 => next,
      _ => code + d.below((next - code + 1) as usize) as u32,
    };
    let scalar = |n: u32| char::from_u32(n).expect("a scalar value");
    let class = if d.now(80) { few[d.below(few.len())] } else { d.below(14) as u8 };
    ranges.push(BreakRange { first: scalar(*code), last: scalar(last), class, pictograph: d.now(30) });
  }
  BreakTable { ranges }
}

/// All tables.
#[derive(Clone)]
pub struct Tables {
  /// No ranges.
  pub none: Arc<Table>,
  pub small: Arc<Table>,
  pub unicode: Arc<Table>,
  pub random: Vec<Arc<Table>>,
}

/// Random tables at a time.
const RANDOM: u32 = 16;

static SOME: LazyLock<[Arc<Table>; 3]> = LazyLock::new(|| {
  let small = Table::read("small", write(&SMALL)).expect("a table");
  let unicode = include_bytes!("../../tables/unicode-15.0.breaks").to_vec();
  [Table::new("none", BreakTable::default()), small, Table::read("unicode", unicode).expect("a table")]
});

/// The table of a call that names no other.
pub fn small() -> Arc<Table> {
  SOME[1].clone()
}

impl Tables {
  pub fn new() -> Self {
    Tables::batch(0)
  }

  /// Each batch has random tables of its own.
  pub fn batch(n: u32) -> Self {
    let [none, small, unicode] = SOME.clone();
    let numbers = RANDOM * n..RANDOM * (n + 1);
    let random = numbers.map(|i| Table::new(&format!("random-{i}"), random(i))).collect();
    Tables { none, small, unicode, random }
  }

  /// The simplest first.
  pub fn all(&self) -> Vec<Arc<Table>> {
    [&self.none, &self.small, &self.unicode].into_iter().chain(&self.random).cloned().collect()
  }
}

#[cfg(test)]
mod tests {
  use super::*;

  #[test]
  fn tables_differ() {
    let all = Tables::new().all();
    for (i, t) in all.iter().enumerate() {
      assert!(all[..i].iter().all(|u| u.name != t.name && u.bytes != t.bytes), "{}", t.name);
    }
    assert!(CODES.is_sorted());
    let kinds: Vec<_> = all.iter().flat_map(|t| &t.ranges.ranges).map(|r| (r.class, r.pictograph)).collect();
    for class in 0..14 {
      assert!(kinds.contains(&(class, true)) && kinds.contains(&(class, false)), "{class}");
    }
  }

  /// The independent reading of the rules and tao's counter agree on all texts of three codes.
  #[test]
  fn counters_agree() {
    for t in Tables::new().all() {
      for a in CODES {
        for b in CODES {
          for c in CODES {
            let text: String = [a, b, c].iter().map(|c| char::from_u32(*c).unwrap()).collect();
            let pieces = break_table::pieces(&t.ranges, &text);
            assert_eq!(tao_oracle::clusters(&t.ranges, &text), pieces, "{} {text:?}", t.name);
          }
        }
      }
    }
  }
}
