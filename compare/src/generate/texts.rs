//! Texts on which the logical key turns, and thousands of tokens.
use super::{Played, Player};
use crate::{
  script::{lparam, message, state, up, Token},
  tables::CODES,
};
use kbtypes::BreakRange;

/// Break classes.
const EXTEND: u8 = 4;
const ZWJ: u8 = 5;

const TEXTS: [&[u64]; 32] = [
  &[0x0D, 0x0A],
  &[0x0A, 0x0D],
  &[0x0D, 0x0D],
  &[0x0D, 0x0A, 0x0A],
  &[0x0D, 0x0A, 0x301],
  &[0x0D, 0x301],
  &[0x301, 0x301],
  &[0x65, 0x301],
  &[0x65, 0x300, 0x36F],
  &[0x65, 0x2FF],
  &[0x65, 0x370],
  &[0x65, 0x301, 0x65],
  &[0x1_F600, 0x301],
  &[0xD83D, 0xDE00, 0x36F],
  &[0xD83D, 0xDE00],
  &[0xDE00, 0xD83D],
  &[0xD83D, 0x61, 0xDE00],
  &[0x1_F600, 0x1_F600],
  &[0x11_0000],
  &[0x11_0000, 0x301],
  &[0x1_F468, 0x200D, 0x1_F469],
  &[0xD83D, 0xDC68, 0x200D, 0xD83D, 0xDC69],
  &[0x1_F468, 0x1_F3FB, 0x200D, 0x1_F469, 0x200D, 0x1_F469],
  &[0x1_F468, 0x200D, 0x200D, 0x1_F469],
  &[0x1_F1E6, 0x1_F1FF],
  &[0x1_F1E6, 0x1_F1FF, 0x1_F1E6],
  &[0x1_F1E6; 8],
  &[0x1100, 0x1161, 0x11A8],
  &[0xAC00, 0x11A8, 0x11A8],
  &[0x915, 0x94D, 0x937],
  &[0x600, 0x31],
  &[0x915, 0x903],
];

impl Player<'_> {
  /// Texts on both sides of what is one piece, of what is a pair, of Control.
  pub(super) fn pieces(&mut self) -> Played {
    for _ in 0..2 + self.d.below(6) {
      // mostly a key that is a character, so that the text may become the logical key
      if self.d.now(60) {
        let g = self.g;
        self.layout = if self.d.now(50) { g.layouts.plain.clone() } else { g.layouts.accent.clone() };
        self.state = state(&[]);
      }
      let (vk, scan) = self.d.of(&[(0x31, 0x02), (0x31, 0x02), (0x45, 0x12), (0x32, 0x03), (0x0D, 0x1C), (0xDD, 0x0D)]);
      self.bring(message(0x100, vk, lparam(scan)))?;
      self.finish(Token::Latest, Some(message(0x102, 0x31, lparam(scan))))?;
      let text = self.text();
      for (i, code) in text.iter().enumerate() {
        if self.d.now(5) {
          self.keyboard();
        }
        let kind = self.d.of(&[0x102, 0x106]);
        self.bring(message(kind, *code, lparam(scan)))?;
        let more = i + 1 < text.len() && !self.d.now(3);
        let peeked = if more { Some(message(0x106, 0x31, lparam(scan))) } else { None };
        self.finish(Token::Latest, peeked)?;
      }
      if self.d.now(20) {
        self.any()?;
      }
    }
    Ok(())
  }

  /// An end of a range of the table in force that passes a test.
  fn end_of(&mut self, test: impl Fn(&BreakRange) -> bool) -> Option<u64> {
    let some: Vec<&BreakRange> = self.table.ranges.ranges.iter().filter(|r| test(r)).collect();
    let r = some.get(self.d.below(some.len().max(1)))?;
    Some(u32::from(if self.d.now(50) { r.first } else { r.last }).into())
  }

  /// A text as GB11 joins it by the table in force, if that has what is needed: the pictographs may be of any class.
  fn joined(&mut self) -> Vec<u64> {
    let extend = self.d.now(50);
    let mut out = vec![self.end_of(|r| r.pictograph && (r.class == EXTEND || !extend))];
    if self.d.now(30) {
      out.push(self.end_of(|r| r.class == EXTEND));
    }
    out.push(self.end_of(|r| r.class == ZWJ));
    if self.d.now(15) {
      out.push(self.end_of(|r| r.class == ZWJ));
    }
    out.push(self.end_of(|r| r.pictograph));
    out.into_iter().flatten().collect()
  }

  /// A text by hand, one that a rule may join, or any. Most have at most sixteen units.
  fn text(&mut self) -> Vec<u64> {
    if self.d.now(15) {
      return self.joined();
    }
    let d = &mut self.d;
    let mut out = vec![];
    match d.below(10) {
      0..=2 => return d.of(&TEXTS).to_vec(),
      // pictographs, Extends and ZWJs, with something else now and then
      3 | 4 => {
        for _ in 0..2 + d.below(4) {
          out.push(d.of(&[0x1_F468, 0x1_F469, 0xA9, 0x200D, 0x200D, 0x200D, 0x301, 0x1_F3FB]));
        }
      }
      // regional indicators
      5 => {
        if d.now(40) {
          out.push(d.of(&[0x61, 0x0A, 0x301, 0x600, 0x1_F468]));
        }
        for _ in 0..2 + d.below(5) {
          out.push(if d.now(90) { d.of(&[0x1_F1E6, 0x1_F1FF]) } else { d.of(&[0x61, 0x200D, 0x301]) });
        }
      }
      // Hangul
      6 => {
        for _ in 0..2 + d.below(4) {
          out.push(d.of(&[0x1100, 0x115F, 0x1160, 0x1161, 0x11A8, 0xAC00, 0xAC01]));
        }
      }
      // a letter, what goes before it and behind it
      7 => {
        if d.now(50) {
          out.push(d.of(&[0x600, 0x605, 0x0D, 0x1B]));
        }
        out.push(d.of(&[0x61, 0x915, 0x0A, 0x1_F1E6, 0x1100, 0x1_F468]));
        for _ in 0..d.below(4) {
          out.push(d.of(&[0x300, 0x36F, 0x903, 0x94D, 0x937, 0x200D, 0x1_F3FB]));
        }
      }
      8 => {
        // few codes, so that they come again
        let few = [d.of(&CODES), d.of(&CODES), d.of(&CODES)];
        for _ in 0..2 + d.below(6) {
          out.push(d.of(&few).into());
        }
      }
      _ => {
        for _ in 0..2 + d.below(4) {
          out.push(d.of(&CODES).into());
        }
      }
    }
    out
  }

  /// Releases that are fake, and characters that more follow, take a token each and leave no entry.
  pub(super) fn tokens(&mut self) -> Played {
    self.layout = self.g.layouts.accent.clone();
    self.state = state(&[]);
    let scan = 0x02;
    self.bring(message(0x100, 0x31, lparam(scan)))?;
    self.bring(message(0x100, 0x32, lparam(0x03)))?;
    self.finish(Token::Latest, Some(message(0x102, 0x32, lparam(0x03))))?;
    let most = 4080 + self.d.below(24) as u16;
    while self.m.now().handed < most {
      self.bring(message(0x101, 0x11, up(0x1D)))?;
      self.finish(Token::Latest, Some(message(0x101, 0x12, up(0xE038))))?;
      if self.m.now().handed >= 4096 {
        break;
      }
    }
    for _ in 0..24 {
      self.any()?;
    }
    Ok(())
  }
}
