//! The break table: its encoding, the check (question 11) with the reading, and the pieces of a text by it.
use crate::fields::long;
use kbtypes::{BreakRange, BreakTable};

pub const MOST: usize = 65_536;
/// Bytes before the ranges, and of a range.
pub const HEAD: usize = 8;
pub const RANGE: usize = 9;
/// The most ranges that `MOST` bytes have room for.
pub const RANGES: usize = (MOST - HEAD) / RANGE;
/// The number of this form.
const FORM: u32 = 0;

/// The break classes by their numbers.
#[derive(Clone, Copy, PartialEq, Eq, PartialOrd, Ord, Debug)]
#[repr(u8)]
pub enum Class {
  Other = 0,
  Cr = 1,
  Lf = 2,
  Control = 3,
  Extend = 4,
  Zwj = 5,
  RegionalIndicator = 6,
  Prepend = 7,
  SpacingMark = 8,
  L = 9,
  V = 10,
  T = 11,
  Lv = 12,
  Lvt = 13,
}

pub const CLASSES: [Class; 14] = [
  Class::Other,
  Class::Cr,
  Class::Lf,
  Class::Control,
  Class::Extend,
  Class::Zwj,
  Class::RegionalIndicator,
  Class::Prepend,
  Class::SpacingMark,
  Class::L,
  Class::V,
  Class::T,
  Class::Lv,
  Class::Lvt,
];

/// Why bytes are no table, or ranges have none.
#[derive(Clone, Copy, PartialEq, Eq, Debug)]
pub enum Fault {
  /// More than `MOST` bytes.
  TooLong,
  /// No room for the head.
  TooShort,
  /// Another form's number.
  Form,
  /// Another length than the number of ranges says.
  Length,
  /// An end of this range is no scalar value.
  Scalar(usize),
  /// This range ends before it begins.
  Backwards(usize),
  /// It does not begin behind the end of the one before.
  Order(usize),
  /// Its class is above 13.
  Class(usize),
  /// Its mark is neither 0 nor 1.
  Mark(usize),
}

// ---- writing

/// Writes ranges as they are. What it wrote may be no table.
pub fn write(ranges: &[(u32, u32, u8)]) -> Vec<u8> {
  let mut out = vec![];
  out.extend(FORM.to_le_bytes());
  out.extend((ranges.len() as u32).to_le_bytes());
  ranges.iter().for_each(|r| out.extend(r.0.to_le_bytes()));
  ranges.iter().for_each(|r| out.extend(r.1.to_le_bytes()));
  out.extend(ranges.iter().map(|r| r.2));
  out
}

/// The bytes of these ranges.
pub fn encode(table: &BreakTable) -> Result<Vec<u8>, Fault> {
  let kind = |r: &BreakRange| r.class + 16 * u8::from(r.pictograph);
  let ranges: Vec<(u32, u32, u8)> = table.ranges.iter().map(|r| (r.first.into(), r.last.into(), kind(r))).collect();
  let bytes = write(&ranges);
  let back = decode(&bytes)?;
  assert!(back == *table, "the bytes stand for other ranges");
  Ok(bytes)
}

// ---- reading

fn range(i: usize, first: u32, last: u32, kind: u8, before: Option<char>) -> Result<BreakRange, Fault> {
  let scalar = |n: u32| char::from_u32(n).ok_or(Fault::Scalar(i));
  let (first, last) = (scalar(first)?, scalar(last)?);
  let (class, mark) = (kind % 16, kind / 16);
  if last < first {
    return Err(Fault::Backwards(i));
  }
  if before.is_some_and(|before| first <= before) {
    return Err(Fault::Order(i));
  }
  if usize::from(class) >= CLASSES.len() {
    return Err(Fault::Class(i));
  }
  match mark {
    0 | 1 => Ok(BreakRange { first, last, class, pictograph: mark == 1 }),
    _ => Err(Fault::Mark(i)),
  }
}

/// Question 11: the ranges that these bytes stand for, if they are a table.
pub fn decode(bytes: &[u8]) -> Result<BreakTable, Fault> {
  if bytes.len() > MOST {
    return Err(Fault::TooLong);
  }
  if bytes.len() < HEAD {
    return Err(Fault::TooShort);
  }
  if long(bytes, 0) != FORM {
    return Err(Fault::Form);
  }
  let n = long(bytes, 4) as usize;
  if bytes.len() != HEAD + RANGE * n {
    return Err(Fault::Length);
  }
  let mut table = BreakTable::default();
  let mut before = None;
  for i in 0..n {
    let (first, last) = (long(bytes, HEAD + 4 * i), long(bytes, HEAD + 4 * (n + i)));
    let r = range(i, first, last, bytes[HEAD + 8 * n + i], before)?;
    before = Some(r.last);
    table.ranges.push(r);
  }
  Ok(table)
}

// ---- pieces

/// What the table says of a scalar value: its break class, and whether it is a pictograph.
#[derive(Clone, Copy, PartialEq, Eq, Debug)]
pub struct Kind {
  pub class: Class,
  pub pictograph: bool,
}

/// The ranges are looked through one by one.
pub fn kind(table: &BreakTable, c: char) -> Kind {
  match table.ranges.iter().find(|r| (r.first..=r.last).contains(&c)) {
    Some(r) => Kind { class: CLASSES[usize::from(r.class)], pictograph: r.pictograph },
    None => Kind { class: Class::Other, pictograph: false },
  }
}

/// The rules that decide, as Annex 29 numbers them.
#[derive(Clone, Copy, PartialEq, Eq, PartialOrd, Ord, Debug)]
pub enum Rule {
  Gb3,
  Gb4,
  Gb5,
  Gb6,
  Gb7,
  Gb8,
  Gb9,
  Gb9a,
  Gb9b,
  Gb11,
  Gb12,
  Gb13,
  Gb999,
}

impl Rule {
  pub fn breaks(self) -> bool {
    matches!(self, Rule::Gb4 | Rule::Gb5 | Rule::Gb999)
  }
}

/// Whether a text ends with a pictograph, any number of Extend, and a ZWJ: the left side of GB11. The pictograph may
/// itself be an Extend.
fn ends_joined(before: &[Kind]) -> bool {
  let Some((last, rest)) = before.split_last() else { return false };
  let extends = rest.iter().rev().take_while(|k| k.class == Class::Extend).count();
  // the Extends, and the one before them
  let nearest = rest.iter().rev().take(extends + 1);
  last.class == Class::Zwj && nearest.into_iter().any(|k| k.pictograph)
}

/// The first rule whose both sides match around a place. Left sides are matched in the whole text before it.
pub fn rule(before: &[Kind], next: Kind) -> Rule {
  use Class::*;
  let last = before.last().expect("a scalar value before the place").class;
  let regional = before.iter().rev().take_while(|k| k.class == RegionalIndicator).count();
  let breaks_around = |c: Class| matches!(c, Control | Cr | Lf);
  if last == Cr && next.class == Lf {
    Rule::Gb3
  } else if breaks_around(last) {
    Rule::Gb4
  } else if breaks_around(next.class) {
    Rule::Gb5
  } else if last == L && matches!(next.class, L | V | Lv | Lvt) {
    Rule::Gb6
  } else if matches!(last, Lv | V) && matches!(next.class, V | T) {
    Rule::Gb7
  } else if matches!(last, Lvt | T) && next.class == T {
    Rule::Gb8
  } else if matches!(next.class, Extend | Zwj) {
    Rule::Gb9
  } else if next.class == SpacingMark {
    Rule::Gb9a
  } else if last == Prepend {
    Rule::Gb9b
  } else if ends_joined(before) && next.pictograph {
    Rule::Gb11
  } else if regional % 2 == 1 && next.class == RegionalIndicator {
    // GB12 where the run begins the text
    if regional == before.len() {
      Rule::Gb12
    } else {
      Rule::Gb13
    }
  } else {
    Rule::Gb999
  }
}

/// The rules that decide between the scalar values of a text, place by place.
pub fn rules(table: &BreakTable, text: &str) -> Vec<Rule> {
  let kinds: Vec<Kind> = text.chars().map(|c| kind(table, c)).collect();
  (1..kinds.len()).map(|i| rule(&kinds[..i], kinds[i])).collect()
}

/// How many pieces a text has. An empty text has none.
pub fn pieces(table: &BreakTable, text: &str) -> usize {
  let breaks = rules(table, text).into_iter().filter(|r| r.breaks()).count();
  breaks + usize::from(!text.is_empty())
}

#[cfg(test)]
mod tests;
