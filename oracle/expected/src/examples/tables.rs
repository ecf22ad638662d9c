//! Break tables: a small one that most calls bring, and others.
use areas::break_table::{self, write};
use kbtypes::BreakTable;
use std::sync::{Arc, LazyLock};

/// The bytes of a table, under the name that it has in the file, and what they stand for: none where question 11 refuses them.
#[derive(Clone)]
pub struct Table {
  pub name: &'static str,
  /// What it is, for the comment above it.
  pub shows: &'static str,
  pub bytes: Arc<[u8]>,
  pub ranges: Option<Arc<BreakTable>>,
}

impl Table {
  pub fn new(name: &'static str, shows: &'static str, bytes: Vec<u8>) -> Self {
    let ranges = break_table::decode(&bytes).ok().map(Arc::new);
    Table { name, shows, bytes: bytes.into(), ranges }
  }
}

/// tables/unicode-15.0.breaks.
pub const UNICODE: &[u8] = include_bytes!("../../../../tables/unicode-15.0.breaks");

/// A pictograph of class Other.
const PICTOGRAPH: u8 = 16;

/// Some of each class but LVT.
const SMALL: [(u32, u32, u8); 14] = [
  (0x0A, 0x0A, 2),
  (0x0D, 0x0D, 1),
  (0x300, 0x36F, 4),
  (0x600, 0x605, 7),
  (0x903, 0x903, 8),
  (0x94D, 0x94D, 4),
  (0x1100, 0x115F, 9),
  (0x1160, 0x11A7, 10),
  (0x11A8, 0x11FF, 11),
  (0x200D, 0x200D, 5),
  (0xAC00, 0xAC00, 12),
  (0x1_F1E6, 0x1_F1FF, 6),
  (0x1_F3FB, 0x1_F3FF, 4),
  (0x1_F466, 0x1_F469, PICTOGRAPH),
];

static TABLE: LazyLock<Table> = LazyLock::new(|| {
  let shows = "most calls bring this one: LF and CR, 0300 to 036F, 094D and 1F3FB to 1F3FF (Extend), 0600 to 0605 (Prepend), \
               0903 (SpacingMark),\n-- the parts of Hangul syllables (L, V, T) and AC00 (LV), 200D (ZWJ), 1F1E6 to 1F1FF (regional \
               indicators), 1F466 to 1F469 (pictographs)";
  Table::new("table", shows, write(&SMALL))
});

/// The table of a call that names no other.
pub fn small() -> Table {
  TABLE.clone()
}

/// The tables that the examples name besides.
pub struct Tables {
  pub no_ranges: Table,
  pub no_bytes: Table,
  pub touching: Table,
  pub class_14: Table,
}

impl Tables {
  pub fn new() -> Self {
    let touching = write(&[(0x0A, 0x0D, 2), (0x0D, 0x0D, 1)]);
    Tables {
      no_ranges: Table::new("no_ranges", "no ranges: every scalar value has class Other", write(&[])),
      no_bytes: Table::new("no_bytes", "no bytes at all, so no table", vec![]),
      touching: Table::new("touching", "no table: both ranges have 0D", touching),
      class_14: Table::new("class_14", "no table: there is no such class", write(&[(0x0D, 0x0D, 14)])),
    }
  }

  pub fn all(&self) -> [Table; 5] {
    [&TABLE, &self.no_ranges, &self.no_bytes, &self.touching, &self.class_14].map(Table::clone)
  }
}

/// Unicode's.
pub fn unicode() -> Table {
  static TABLE: LazyLock<Table> = LazyLock::new(|| Table::new("unicode", "", UNICODE.to_vec()));
  TABLE.clone()
}

/// The table with the most ranges that fit: the even scalar values from 10000 on are of class Extend.
pub fn most() -> Vec<u8> {
  let ranges: Vec<(u32, u32, u8)> =
    (0..break_table::RANGES as u32).map(|i| 0x1_0000 + 2 * i).map(|c| (c, c, 4)).collect();
  write(&ranges)
}

#[cfg(test)]
mod tests {
  use super::*;

  /// The independent reading and what stands in for tao's counter agree.
  #[test]
  fn two_counters() {
    let codes = [
      0x0, 0x0A, 0x0D, 0x31, 0x61, 0x301, 0x600, 0x903, 0x915, 0x94D, 0x1100, 0x1160, 0x11A8, 0x200D, 0xAC00, 0xAC01,
      0x1_F1E6, 0x1_F3FB, 0x1_F466,
    ];
    let odd = write(&[(0x0, 0x0, 5), (0x0A, 0x0D, 20), (0x31, 0x31, 21), (0x61, 0x301, 22), (0x600, 0x10_FFFF, 16)]);
    let odd = Table::new("odd", "", odd);
    let mut seen = std::collections::BTreeSet::new();
    for table in [small(), unicode(), Tables::new().no_ranges, odd] {
      let ranges = table.ranges.unwrap();
      for n in 0..codes.len().pow(4) {
        let digits = (0..4).map(|i| n / codes.len().pow(i) % codes.len());
        let text: String = digits.map(|i| char::from_u32(codes[i]).unwrap()).collect();
        // texts of 3 and 4
        for text in [&text[..], &text[text.chars().next().unwrap().len_utf8()..]] {
          let count = break_table::pieces(&ranges, text);
          assert_eq!(tao_oracle::clusters(&ranges, text), count, "{} {text:?}", table.name);
          seen.insert(count);
        }
      }
    }
    assert_eq!(seen.len(), 4);
  }

  #[test]
  fn which_are_tables() {
    let fine = Tables::new().all().map(|t| t.ranges.is_some());
    assert_eq!(fine, [true, true, false, false, false]);
    assert_eq!((small().bytes.len(), most().len()), (134, 65_528));
    assert!(break_table::decode(&most()).is_ok());
  }
}
