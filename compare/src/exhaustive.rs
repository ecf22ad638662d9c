//! All lists of up to four calls over a small alphabet, and all of up to three behind some beginnings.
use crate::{
  layouts::{code, key, text, Layout},
  run::{Machine, Stopped},
  script::{lparam, message, state, up, Body, Message, Odd, State, Step, Token},
  tables::Tables,
};
use kbtypes::{Key, LayoutSpec};
use std::sync::Arc;

/// The most calls of a list; the closings come on top.
const CALLS: usize = 4;
/// The most behind a beginning.
const BEHIND: usize = 3;

/// Few keys: the character 1, Control, an accent, Enter, Caps Lock.
fn few(id: u32, alt_gr: bool) -> LayoutSpec {
  let mut l = LayoutSpec::empty(id);
  l.alt_gr = alt_gr;
  key(&mut l, 0x0D, 0x1C, Some("Enter"));
  key(&mut l, 0x11, 0x1D, Some("Control"));
  key(&mut l, 0x14, 0x3A, Some("CapsLock"));
  key(&mut l, 0x31, 0x02, None);
  key(&mut l, 0xDD, 0x0D, None);
  l.keys[0].insert(code("Digit1"), text("1"));
  l.keys[0].insert(code("Equal"), Key::Dead(Some('´')));
  l.keys[6].insert(code("Digit1"), text("¹"));
  l
}

struct Alphabet {
  all: Vec<Step>,
  layout: Arc<Layout>,
  none: State,
}

impl Alphabet {
  fn add(&mut self, body: Body, keys: &State) -> &mut Step {
    self.all.push(Step::new(&self.layout, keys, body));
    self.all.last_mut().unwrap()
  }
  fn open(&mut self, kind: u32, wparam: u64, lparam: u64) -> &mut Step {
    let keys = self.none.clone();
    self.add(Body::Open(message(kind, wparam, lparam)), &keys)
  }
  fn finish(&mut self, token: Token, peeked: Option<Message>) -> &mut Step {
    let keys = self.none.clone();
    self.add(Body::Finish { token, peeked }, &keys)
  }
}

/// The calls of which the lists are made. A finish that is not marked otherwise has the latest open message's token.
pub fn alphabet() -> Vec<Step> {
  let layout = Layout::new("few", few(7, true));
  let without = Layout::new("few without AltGr", few(8, false));
  let none = state(&[]);
  let control = state(&[(0x11, 0x80), (0xA2, 0x80)]);
  let control_alt = state(&[(0xA2, 0x80), (0xA5, 0x80)]);
  let down = state(&[(0x14, 0x81), (0x31, 0x80), (0xDD, 0x80)]);
  let cut = layout.block.len() - 1;
  let tables = Tables::new();
  let cut_table = tables.small.bytes.len() - 1;
  let mut a = Alphabet { all: vec![], layout, none };
  let alt_gr = |kind| Some(message(kind, 0x12, lparam(0xE038)));
  let latest = Token::Latest;

  // presses
  a.open(0x100, 0x31, lparam(0x02));
  a.open(0x100, 0x11, lparam(0x1D));
  a.open(0x100, 0xDD, lparam(0x0D));
  a.open(0x100, 0x0D, 0x4000_0000 | lparam(0x00));
  a.open(0x104, 0x31, lparam(0x02));
  a.open(0x104, 0x73, lparam(0x3E));
  // releases
  a.open(0x101, 0x31, up(0x02));
  a.open(0x101, 0x11, up(0x1D));
  a.open(0x105, 0xDD, up(0x0D)).layout = without.clone();
  // characters
  for (kind, code) in
    [(0x102, 0x61), (0x102, 0xD83D), (0x106, 0xDE00), (0x102, 0x301), (0x102, 0x0D), (0x106, 0x0A), (0x102, 0x11_0000)]
  {
    a.open(kind, code, lparam(0x02));
  }
  // dead characters, focus, unhandled kinds
  a.open(0x103, 0xB4, lparam(0x0D));
  a.open(0x107, 0xB4, lparam(0x0D)).state = control.clone();
  a.open(0x7, 0, 0).state = down.clone();
  a.open(0x8, 0, 0).state = down;
  a.open(0x7, 0, 0);
  a.open(0x12, 0x31, lparam(0x02));
  a.open(0x1_0100, 0x31, lparam(0x02));
  // finishes
  a.finish(latest, None);
  a.finish(latest, None).state = control.clone();
  a.finish(latest, None).state = control_alt;
  a.finish(latest, None).layout = without.clone();
  a.finish(latest, None).table = tables.none.clone();
  a.finish(latest, Some(message(0x102, 0x61, lparam(0x02))));
  a.finish(latest, Some(message(0x106, 0x61, lparam(0x02)))).state = control;
  a.finish(latest, Some(message(0x103, 0xB4, lparam(0x0D))));
  a.finish(latest, Some(message(0x101, 0x31, up(0x02))));
  a.finish(latest, alt_gr(0x100));
  a.finish(latest, alt_gr(0x105));
  a.finish(latest, alt_gr(0x12));
  a.finish(latest, alt_gr(0x101)).layout = without;
  // wrong tokens
  a.finish(Token::Off(1), None);
  a.finish(Token::Off(u32::MAX), Some(message(0x102, 0x61, lparam(0x02))));
  a.finish(Token::Number(0), None);
  // inputs that the first questions refuse
  a.open(0x100, 0x31, lparam(0x02)).odd.push(Odd::SessionLength(65_535));
  a.finish(latest, None).odd.push(Odd::StateLength(255));
  a.open(0x7, 0, 0).odd.push(Odd::BlockLength(cut));
  a.finish(latest, None).odd.push(Odd::TableLength(cut_table));
  a.all
}

/// Calls that lead where four calls from a fresh session hardly come: a held press, one with units, one that a nested call
/// put there, and seven open messages.
fn beginnings() -> Vec<Vec<Step>> {
  let all = alphabet();
  let open = |kind: u32| all.iter().find(|s| matches!(s.body, Body::Open(m) if m.kind == kind)).unwrap().clone();
  let more = all.iter().find(|s| matches!(s.body, Body::Finish { peeked: Some(m), .. } if m.kind == 0x102)).unwrap();
  let (press, release, character) = (open(0x100), open(0x101), open(0x102));
  let held = [press.clone(), more.clone()];
  let typed = [&held[..], &[character.clone(), more.clone()]].concat();
  let nested = [std::slice::from_ref(&press), &held[..]].concat();
  let inside = [&held[..], std::slice::from_ref(&character)].concat();
  let kinds = [press, character, release];
  let seven = held.iter().chain(kinds.iter().cycle().take(7)).cloned().collect();
  vec![held.to_vec(), typed, nested, inside, seven]
}

/// Runs all lists of up to `most` calls behind a beginning. Gives their number.
fn lists(m: &mut Machine, beginning: &[Step], most: usize) -> Result<u64, Stopped> {
  let all = alphabet();
  let mut done = 0;
  for calls in 1..=most {
    let mut at = vec![0; calls];
    let mut steps = [beginning, &vec![all[0].clone(); calls]].concat();
    loop {
      m.run(&steps).map_err(|d| (steps.clone(), d))?;
      done += 1;
      // the next list: the last call that has a next symbol takes it, those behind it begin again
      let Some(turn) = at.iter().rposition(|s| s + 1 < all.len()) else { break };
      at[turn] += 1;
      at[turn + 1..].fill(0);
      for i in turn..calls {
        steps[beginning.len() + i] = all[at[i]].clone();
      }
    }
  }
  Ok(done)
}

/// Runs every list. Gives how many from a fresh session, and how many behind the beginnings.
pub fn run(m: &mut Machine) -> Result<(u64, u64), Stopped> {
  let whole = lists(m, &[], CALLS)?;
  let mut behind = 0;
  for beginning in beginnings() {
    behind += lists(m, &beginning, BEHIND)?;
  }
  Ok((whole, behind))
}

#[cfg(test)]
mod tests {
  use super::*;

  #[test]
  fn symbols_differ() {
    let all: Vec<String> = alphabet().iter().map(|s| format!("{s:?}")).collect();
    for (i, s) in all.iter().enumerate() {
      assert!(!all[..i].contains(s), "{s}");
    }
  }

  #[test]
  fn every_list_is_run() {
    let n = alphabet().len() as u64;
    let mut m = Machine::new();
    assert_eq!(lists(&mut m, &beginnings()[4], 2).map_err(|(_, d)| d).expect("no difference"), n + n * n);
  }
}
