//! Each byte of small break tables, and some of Unicode's.
use super::{damaged, Tried};
use crate::{
  layouts::{Layout, Layouts},
  run::{Difference, Machine, Stopped},
  script::{lparam, message, state, Body, Odd, Step, Token},
  tables::{Table, Tables},
};
use areas::break_table::{self, HEAD};
use std::sync::Arc;

/// Of Unicode's table each so many bytes one is damaged.
const SAMPLE: usize = 23;

/// The scalar values at both sides of the ends of a table's range.
fn around(t: &Table, i: usize) -> Vec<u64> {
  let Some(r) = t.ranges.ranges.get(i) else { return vec![] };
  let (first, last) = (u32::from(r.first), u32::from(r.last));
  let near = [first.wrapping_sub(1), first, last, last + 1];
  near.into_iter().filter_map(char::from_u32).map(u64::from).collect()
}

/// A press, and the characters of a text behind it, all with this table.
fn typed(l: &Arc<Layout>, t: &Arc<Table>, codes: &[u64]) -> Vec<Step> {
  let step = |body| Step::new(l, &state(&[]), body).with(t);
  let more = Some(message(0x102, 0x31, lparam(0x02)));
  let mut steps = vec![step(Body::Open(message(0x100, 0x31, lparam(0x02))))];
  for code in codes {
    steps.push(step(Body::Finish { token: Token::Latest, peeked: more }));
    steps.push(step(Body::Open(message(0x102, *code, lparam(0x02)))));
  }
  steps.push(step(Body::Finish { token: Token::Latest, peeked: None }));
  steps
}

/// Texts whose pieces turn on what the range with the byte at `at` says, in the table before and in the one now.
fn reading(l: &Arc<Layout>, before: &Table, at: usize, now: &Arc<Table>) -> Vec<Step> {
  let n = before.ranges.ranges.len();
  let range = match at {
    ..HEAD => 0,
    at if at < HEAD + 8 * n => (at - HEAD) / 4 % n,
    at => at - HEAD - 8 * n,
  };
  let mut codes = [around(before, range), around(now, range)].concat();
  codes.sort();
  codes.dedup();
  let (letter, mark, zwj, pictograph, flag) = (0x61, 0x301, 0x200D, 0x1_F468, 0x1_F1E6);
  let texts = |c: u64| {
    let [a, b, d, e] = [[c, letter], [letter, c], [c, c], [c, mark]].map(|t| t.to_vec());
    [
      a,
      b,
      d,
      e,
      vec![pictograph, zwj, c],
      vec![pictograph, c, zwj, pictograph],
      vec![flag, c, flag],
      vec![0x1161, c, 0x11A8],
    ]
  };
  codes.into_iter().flat_map(texts).flat_map(|text| typed(l, now, &text)).collect()
}

/// An ignored message, an open and a finish with the damaged table, which the run expects to be refused by the same reading.
fn refused(l: &Arc<Layout>, t: &Arc<Table>, at: usize, by: u8) -> Vec<Step> {
  let step = |body| Step::new(l, &state(&[]), body).with(t);
  let press = step(Body::Open(message(0x100, 0x31, lparam(0x02))));
  let finish = step(Body::Finish { token: Token::Latest, peeked: None });
  let odd = |s: &Step| s.clone().odd(Odd::TableByte(at, by));
  vec![odd(&step(Body::Open(message(0x12, 0, 0)))), odd(&press), press, odd(&finish), finish]
}

pub fn run(m: &mut Machine) -> Result<Tried, Stopped> {
  let (mut tried, mut fine) = (0, 0);
  let (l, t) = (Layouts::new(), Tables::new());
  for (table, step) in [(&t.none, 1), (&t.small, 1), (&t.random[0], 1), (&t.random[1], 1), (&t.unicode, SAMPLE)] {
    for at in (0..table.bytes.len()).step_by(step) {
      for byte in damaged(table.bytes[at]) {
        tried += 1;
        let mut bytes = table.bytes.clone();
        bytes[at] = byte;
        let name = format!("{}, byte {at} is {byte:02X}", table.name);
        let steps = match Table::read(&name, bytes) {
          None => refused(&l.plain, table, at, table.bytes[at] ^ byte),
          Some(read) => {
            fine += 1;
            if break_table::encode(&read.ranges).ok().as_ref() != Some(&read.bytes) {
              let what = format!("{name}: its ranges have other bytes");
              return Err((vec![], Difference { at: 0, what }));
            }
            reading(&l.plain, table, at, &read)
          }
        };
        m.run(&steps).map_err(|d| (steps.clone(), d))?;
      }
    }
  }
  Ok((tried, fine))
}
