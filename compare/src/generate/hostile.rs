//! Calls that the questions refuse, or that look like it.
use super::{Played, Player, OTHER_KINDS};
use crate::script::{message, Body, Odd, Token};

impl Player<'_> {
  fn odd(&mut self) -> Odd {
    let size = 65_536;
    let (block, table) = (self.layout.block.len(), self.table.bytes.len());
    let used = 109 + 199 * self.m.now().entries.len();
    let d = &mut self.d;
    let bit = 1_u8 << d.below(8);
    let by = if d.now(60) { bit } else { 1 + d.below(255) as u8 };
    match d.below(26) {
      0 => Odd::SessionLength(d.of(&[0, 1, size - 1, size + 1, size + 32])),
      1 => Odd::AnswersLength(d.of(&[0, 1, size - 1, size + 1, size + 32])),
      2 => Odd::StateLength(d.of(&[0, 1, 128, 255, 257, 512])),
      3 => Odd::BlockLength(d.of(&[0, 1, 2633, 2634, 2635, block - 1, block + 1, block + 16, size, size + 1])),
      4..=6 => Odd::BlockByte(d.below(74), by),
      7..=9 => Odd::BlockByte(74 + d.below(2560), by),
      10..=12 => Odd::BlockByte(2634 + d.below((block - 2634).max(1)), by),
      13..=18 => Odd::SessionByte(d.below(used), by),
      19 => Odd::TableLength(d.of(&[0, 1, 7, 8, 9, 16, 17, table - 1, table + 1, table + 9, size, size + 1])),
      20 => Odd::TableByte(d.below(8), by),
      21..=24 => Odd::TableByte(d.below(table), by),
      _ => Odd::SessionByte(d.below(size), by),
    }
  }

  pub(super) fn hostile(&mut self) -> Played {
    let d = &mut self.d;
    if d.now(25) {
      let token = match d.below(3) {
        0 => Token::Number(d.of(&[0, 1, 7, 8, 255, 256, 4095, 4096, 65_535, 65_536, u32::MAX])),
        1 => Token::Off(d.of(&[1, 2, u32::MAX, u32::MAX - 1, 256, 4096, 65_536, 0x8000_0000])),
        _ => Token::Number(d.next() as u32),
      };
      let peeked = self.peeked();
      return self.finish(token, peeked);
    }
    if d.now(20) {
      let kind = if d.now(50) { d.of(&OTHER_KINDS) } else { d.next() as u32 };
      let m = message(kind, self.d.next(), self.d.next());
      return self.bring(m);
    }
    if d.now(15) {
      let kind = d.of(&[0x100, 0x101, 0x102, 0x103, 0x104, 0x105, 0x106, 0x107, 7, 8]);
      let m = message(kind, self.d.next(), self.d.next());
      return self.bring(m);
    }
    let finish = self.m.now().latest().is_some() && self.d.now(50);
    let body =
      if finish { Body::Finish { token: Token::Latest, peeked: self.peeked() } } else { Body::Open(self.message()) };
    let mut step = self.step(body);
    step.odd.push(self.odd());
    while self.d.now(20) {
      step.odd.push(self.odd());
    }
    self.play(step)
  }
}
