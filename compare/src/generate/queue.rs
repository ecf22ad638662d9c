//! A queue as Windows has it: what a scanner or a typist puts there, read in its order.
use super::{Played, Player};
use crate::script::{lparam, message, state, up, Message, State, Token};

/// A message in a queue, and the keys that are down when it is read.
#[derive(Clone)]
struct Item(Message, State);

impl Player<'_> {
  pub(super) fn queue(&mut self) -> Played {
    let g = self.g;
    self.layout = match self.d.below(10) {
      0..=4 => g.layouts.accent.clone(),
      5..=8 => g.layouts.plain.clone(),
      _ => g.layouts.us.clone(),
    };
    let keys = if self.d.now(8) { 20 } else { 1 + self.d.below(4) };
    let mut items = vec![];
    for _ in 0..keys {
      self.typed(&mut items);
    }
    let mut at = 0;
    while at < items.len() {
      self.deliver(&items, &mut at, 0)?;
    }
    Ok(())
  }

  /// The messages of one key, or of a key with what goes with it.
  fn typed(&mut self, out: &mut Vec<Item>) {
    let none = state(&[]);
    let mut item = |kind, wparam, lparam, s: &State| out.push(Item(message(kind, wparam, lparam), s.clone()));
    match self.d.below(24) {
      0 => {
        // a capital letter
        let shift = state(&[(0x10, 0x80), (0xA0, 0x80)]);
        item(0x100, 0x10, lparam(0x2A), &shift);
        item(0x100, 0x45, lparam(0x12), &shift);
        item(0x102, 0x45, lparam(0x12), &shift);
        item(0x101, 0x45, up(0x12), &shift);
        item(0x101, 0x10, up(0x2A), &none);
      }
      1 => {
        // AltGr and E: Control is fake
        let alt_gr = state(&[(0x11, 0x80), (0x12, 0x80), (0xA2, 0x80), (0xA5, 0x80)]);
        item(0x100, 0x11, lparam(0x1D), &alt_gr);
        item(0x100, 0x12, lparam(0xE038), &alt_gr);
        item(0x100, 0x45, lparam(0x12), &alt_gr);
        item(0x102, 0x20AC, lparam(0x12), &alt_gr);
        item(0x101, 0x45, up(0x12), &alt_gr);
        item(0x105, 0x11, up(0x1D), &alt_gr);
        item(0x101, 0x12, up(0xE038), &none);
      }
      2 => {
        // an accent and the letter that it joins
        item(0x100, 0xDD, lparam(0x0D), &none);
        item(0x103, 0xB4, lparam(0x0D), &none);
        item(0x101, 0xDD, up(0x0D), &none);
        item(0x100, 0x45, lparam(0x12), &none);
        item(0x102, 0xE9, lparam(0x12), &none);
        item(0x101, 0x45, up(0x12), &none);
      }
      3 => {
        // an accent and a letter that it does not join
        item(0x100, 0xDD, lparam(0x0D), &none);
        item(0x103, 0xB4, lparam(0x0D), &none);
        item(0x101, 0xDD, up(0x0D), &none);
        item(0x100, 0x31, lparam(0x02), &none);
        item(0x102, 0xB4, lparam(0x02), &none);
        item(0x102, 0x31, lparam(0x02), &none);
        item(0x101, 0x31, up(0x02), &none);
      }
      4 => {
        // a character that was sent
        item(0x100, 0xE7, 0x1, &none);
        item(0x102, 0xD83D, 0x1, &none);
        item(0x102, 0xDE00, 0x1, &none);
        item(0x101, 0xE7, 0xC000_0001, &none);
      }
      5 => {
        // Control and a letter
        let control = state(&[(0x11, 0x80), (0xA2, 0x80)]);
        item(0x100, 0x11, lparam(0x1D), &control);
        item(0x100, 0x45, lparam(0x12), &control);
        item(0x102, 0x05, lparam(0x12), &control);
        item(0x101, 0x45, up(0x12), &control);
        item(0x101, 0x11, up(0x1D), &none);
      }
      6 => {
        // Alt and a digit, then Alt and F4
        let alt = state(&[(0x12, 0x80), (0xA4, 0x80)]);
        item(0x104, 0x12, 0x2000_0000 | lparam(0x38), &alt);
        item(0x104, 0x31, 0x2000_0000 | lparam(0x02), &alt);
        item(0x106, 0x31, 0x2000_0000 | lparam(0x02), &alt);
        item(0x105, 0x31, 0x2000_0000 | up(0x02), &alt);
        item(0x104, 0x73, 0x2000_0000 | lparam(0x3E), &alt);
        item(0x105, 0x12, up(0x38), &none);
      }
      7 => {
        item(0x100, 0x0D, lparam(0x1C), &none);
        item(0x102, 0x0D, lparam(0x1C), &none);
        item(0x101, 0x0D, up(0x1C), &none);
      }
      8 => {
        // focus is lost and gained with a key down
        let down = state(&[(0x31, 0x80), (0xA0, 0x80), (0x14, 0x81)]);
        item(0x8, 0, 0, &down);
        item(0x7, 0, 0, &down);
      }
      9 => {
        // a key that repeats
        item(0x100, 0x31, lparam(0x02), &none);
        item(0x102, 0x31, lparam(0x02), &none);
        item(0x100, 0x31, 0x4000_0000 | lparam(0x02), &none);
        item(0x102, 0x31, 0x4000_0000 | lparam(0x02), &none);
        item(0x101, 0x31, up(0x02), &none);
      }
      _ => {
        let d = 0x30 + self.d.below(10) as u64;
        let scan = if d == 0x30 { 0x0B } else { d - 0x2F };
        item(0x100, d, lparam(scan), &none);
        item(0x102, d, lparam(scan), &none);
        item(0x101, d, up(scan), &none);
      }
    }
  }

  /// Opens the next message of the queue, perhaps others inside it, and finishes it with the one that is next by then.
  fn deliver(&mut self, items: &[Item], at: &mut usize, depth: usize) -> Played {
    let Item(m, keys) = items[*at].clone();
    *at += 1;
    let before = self.m.now().open();
    self.state = keys;
    self.bring(m)?;
    if self.m.now().open() == before {
      return Ok(());
    }
    while depth < 9 && self.d.now(7) {
      if *at < items.len() && self.d.now(60) {
        self.deliver(items, at, depth + 1)?;
      } else {
        self.state = if self.d.now(50) { state(&[(0x31, 0x80), (0xA2, 0x80)]) } else { state(&[]) };
        let kind = self.d.of(&[7, 8]);
        self.bring(message(kind, 0, 0))?;
      }
    }
    // Sometimes the next has not come yet.
    let next = items.get(*at).filter(|_| self.d.now(93)).cloned();
    if let Some(Item(_, keys)) = &next {
      self.state = keys.clone();
    }
    let peeked = next.map(|i| i.0).filter(|m| m.kind >= 0x100);
    self.finish(Token::Latest, peeked)
  }
}
