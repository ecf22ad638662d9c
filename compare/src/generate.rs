//! Scripts from a seed. A script grows call by call, and the next call is chosen by what the session is by then.
use crate::{
  dice::Dice,
  layouts::{Layout, Layouts, KEYS},
  run::{Difference, Machine, Stopped},
  script::{lparam, message, state, Body, Message, State, Step, Token},
  tables::{Table, Tables, CODES},
};
use std::sync::Arc;

mod hostile;
mod queue;
mod texts;

/// Character codes on both sides of every border that a character message has.
const CHARACTERS: [u64; 40] = [
  0x31,
  0x61,
  0x65,
  0x41,
  0x11,
  0x1B,
  0x0D,
  0x0A,
  0x0D,
  0x0A,
  0x300,
  0x301,
  0x301,
  0x36F,
  0x2FF,
  0x370,
  0xE9,
  0x20AC,
  0xD7FF,
  0xE000,
  0xFFFF,
  0xD800,
  0xD83D,
  0xD83D,
  0xDBFF,
  0xDC00,
  0xDE00,
  0xDFFF,
  0x1_0000,
  0x1_F600,
  0x10_FFFF,
  0x11_0000,
  0xFFFF_FFFF,
  0x1_0000_0000,
  0x1_0000_D800,
  0x1_0000_0061,
  0xFFFF_FFFF_0000_0041,
  0xD83D_0000_0000,
  0x0,
  0x80,
];

const OTHER_KINDS: [u32; 18] = [
  0x0,
  0x6,
  0x9,
  0x12,
  0xFF,
  0x108,
  0x109,
  0x10A,
  0x1_0007,
  0x1_0100,
  0x1_0101,
  0x1_0102,
  0x1_0103,
  0x1_0104,
  0x8000_0101,
  0x8000_0007,
  0x200,
  0xFFFF_FFFF,
];

const KEY_KINDS: [u32; 4] = [0x100, 0x101, 0x104, 0x105];

/// What a script is like.
#[derive(Clone, Copy, PartialEq, Eq, Debug)]
enum Manner {
  /// A scanner's or a typist's queue, read in its order, with focus changes and nested calls now and then.
  Queue,
  /// Anything that the questions mostly accept.
  Any,
  /// Many messages inside one another.
  Deep,
  /// Long texts.
  Units,
  /// A held press and one of the texts on which its logical key turns.
  Pieces,
  /// Focus messages with many keys down.
  Focus,
  /// Inputs that the questions refuse, wide numbers, wrong tokens, damaged bytes.
  Hostile,
  /// Thousands of tokens while one message is open.
  Tokens,
}

pub struct Generator {
  batch: u32,
  layouts: Layouts,
  /// As often as they are to come.
  weighted: Vec<Arc<Layout>>,
  tables: Tables,
  weighted_tables: Vec<Arc<Table>>,
}

struct Player<'a> {
  g: &'a Generator,
  m: &'a mut Machine,
  d: Dice,
  manner: Manner,
  layout: Arc<Layout>,
  table: Arc<Table>,
  state: State,
  steps: Vec<Step>,
  /// The character of long texts, and how often in a hundred it is that one.
  code: u64,
  same: usize,
}

/// So many scripts have the same layouts and tables.
const BATCH: u64 = 10_000;

impl Generator {
  pub fn new() -> Self {
    Generator::with(0)
  }

  fn with(batch: u32) -> Self {
    let layouts = Layouts::batch(batch);
    let mut weighted = layouts.all();
    for _ in 0..5 {
      weighted.extend([layouts.plain.clone(), layouts.accent.clone(), layouts.accent.clone(), layouts.odd.clone()]);
    }
    let tables = Tables::batch(batch);
    let mut weighted_tables = tables.all();
    for _ in 0..8 {
      weighted_tables.extend([tables.small.clone(), tables.unicode.clone()]);
    }
    weighted_tables.extend([tables.none.clone(), tables.none.clone()]);
    Generator { batch, layouts, weighted, tables, weighted_tables }
  }

  /// Runs the script of a seed.
  pub fn script(&mut self, seed: u64, m: &mut Machine) -> Result<Vec<Step>, Stopped> {
    let batch = (seed / BATCH) as u32;
    if batch != self.batch {
      *self = Generator::with(batch);
    }
    let mut d = Dice::new(seed);
    let manner = match d.below(1000) {
      0..=249 => Manner::Queue,
      250..=559 => Manner::Any,
      560..=639 => Manner::Deep,
      640..=709 => Manner::Units,
      710..=799 => Manner::Pieces,
      800..=859 => Manner::Focus,
      860..=998 => Manner::Hostile,
      _ if d.now(12) => Manner::Tokens,
      _ => Manner::Hostile,
    };
    let (layout, table) = (self.layouts.plain.clone(), self.tables.small.clone());
    let code = d.of(&[0x20AC, 0x20AC, 0x1_F600, 0x61, 0x11_0000]);
    let same = d.of(&[0, 60, 100]);
    let mut p = Player { g: self, m, d, manner, layout, table, state: state(&[]), steps: vec![], code, same };
    match p.whole() {
      Ok(()) => Ok(p.steps),
      Err(difference) => Err((p.steps, difference)),
    }
  }
}

type Played = Result<(), Difference>;

impl Player<'_> {
  fn whole(&mut self) -> Played {
    self.m.begin()?;
    self.keyboard();
    match self.manner {
      Manner::Queue => self.queue()?,
      Manner::Tokens => self.tokens()?,
      Manner::Pieces => self.pieces()?,
      _ => {
        let long = self.d.now(if self.manner == Manner::Units { 40 } else { 4 });
        let calls = if long { 60 } else { 4 + self.d.below(22) };
        for _ in 0..calls {
          self.any()?;
        }
      }
    }
    if self.d.now(50) {
      while self.m.now().latest().is_some() {
        let peeked = self.peeked();
        self.finish(Token::Latest, peeked)?;
      }
      if self.m.now().held.is_some() && self.d.now(60) {
        let kind = self.d.of(&[0x103, 0x107]);
        self.bring(message(kind, 0xB4, lparam(0x0D)))?;
      }
    }
    let last = self.step(Body::Finish { token: Token::Latest, peeked: None });
    self.m.end(&last)
  }

  /// A call with keyboard and table as they are; the table is another one now and then.
  fn step(&mut self, body: Body) -> Step {
    if self.d.now(if self.manner == Manner::Pieces { 6 } else { 3 }) {
      self.table();
    }
    Step::new(&self.layout, &self.state, body).with(&self.table)
  }

  fn play(&mut self, mut step: Step) -> Played {
    if self.d.now(6) {
      step.fill = Some(self.d.of(&[0xFF, 0x01, 0x80, 0xAA]));
    }
    self.steps.push(step);
    self.m.step(self.steps.last().unwrap())
  }

  fn bring(&mut self, m: Message) -> Played {
    let step = self.step(Body::Open(m));
    self.play(step)
  }

  fn finish(&mut self, token: Token, peeked: Option<Message>) -> Played {
    let step = self.step(Body::Finish { token, peeked });
    self.play(step)
  }

  // ---- keyboards and tables

  fn table(&mut self) {
    let all = &self.g.weighted_tables;
    self.table = all[self.d.below(all.len())].clone();
  }

  fn keyboard(&mut self) {
    if self.d.now(40) {
      self.table();
    }
    let (g, d) = (self.g, &mut self.d);
    self.layout = g.weighted[d.below(g.weighted.len())].clone();
    if self.manner == Manner::Focus && d.now(50) {
      self.layout = g.layouts.full.clone();
    }
    let mut keys = [0; 256];
    if self.manner == Manner::Focus {
      let busy = d.of(&[0, 3, 20, 60, 100]);
      for byte in &mut keys {
        if d.now(busy) {
          *byte = d.of(&[0x80, 0x81, 0x80, 0x01, 0xFF]);
        }
      }
    } else {
      let busy = d.of(&[0, 0, 4, 15]);
      for vk in KEYS {
        if d.now(busy) {
          keys[usize::from(vk)] = d.of(&[0x80, 0x80, 0x81, 0x01, 0x7F, 0xFF]);
        }
      }
    }
    let sets: [&[usize]; 11] = [
      &[0x11, 0xA2],
      &[0x11, 0xA3],
      &[0xA2],
      &[0x10, 0xA0],
      &[0x10, 0xA1],
      &[0x12, 0xA4],
      &[0x12, 0xA5],
      &[0x11, 0x12, 0xA2, 0xA5],
      &[0xA3, 0xA4],
      &[0x14],
      &[0x90],
    ];
    for set in sets {
      if d.now(7) {
        let byte = if set.len() == 1 && set[0] != 0xA2 { 0x01 } else { 0x80 };
        set.iter().for_each(|vk| keys[*vk] = byte);
      }
    }
    self.state = Arc::new(keys);
  }

  // ---- messages

  fn lparam(&mut self, scan: u16) -> u64 {
    let extended = u64::from(scan > 0xFF) ^ u64::from(self.d.now(4));
    let top = self.d.of(&[0, 0, 1, 3, 3, 2]) << 30;
    let high = if self.d.now(4) { self.d.next() << 32 } else { 0 };
    let count = if self.d.now(4) { self.d.next() & 0x3E00_FFFF } else { 1 };
    high | top | extended << 24 | u64::from(scan & 0xFF) << 16 | count
  }

  /// wParam and lParam of a key message.
  fn key(&mut self) -> (u64, u64) {
    let d = &mut self.d;
    let vk = match d.below(24) {
      0 => d.next() as u16,
      1 => d.of(&KEYS) | 0x100,
      2..=5 => d.of(&[0x11, 0xA2, 0xA3]),
      6..=7 => d.of(&[0x12, 0xA5]),
      _ => d.of(&KEYS),
    };
    let high = if d.now(4) { d.next() << 16 } else { 0 };
    let own = self.layout.maps.scan_of_vk.get(usize::from(vk)).copied().unwrap_or(0);
    let scan = match d.below(12) {
      0 | 1 => 0,
      2 => d.next() as u16,
      3 => d.of(&[0x02, 0x1D, 0x38, 0xE038, 0x45, 0xE045, 0xE046, 0x54, 0xE037, 0x7F]),
      _ => own,
    };
    (high | u64::from(vk), self.lparam(scan))
  }

  fn character(&mut self) -> u64 {
    match self.d.below(200) {
      0 => self.d.next(),
      1..=60 => self.d.of(&[0x31, 0x61, 0x301, 0xD83D, 0xDE00]),
      61..=100 => self.d.of(&CODES).into(),
      _ => self.d.of(&CHARACTERS),
    }
  }

  fn message(&mut self) -> Message {
    let held = self.m.now().held.is_some();
    let kind = match self.d.below(100) {
      0..=24 => 0x100,
      25..=44 => 0x101,
      45..=65 => 0x102,
      66..=70 if held => 0x103,
      66..=67 => 0x103,
      71..=76 => 0x104,
      77..=81 => 0x105,
      82..=86 => 0x106,
      87..=88 if held => 0x107,
      87 => 0x107,
      89..=91 => 0x7,
      92..=94 => 0x8,
      95..=97 => self.d.of(&OTHER_KINDS),
      _ => 0x100,
    };
    let (vk, lparam) = self.key();
    let wparam = match kind {
      0x102 | 0x103 | 0x106 | 0x107 => self.character(),
      0x104 if self.d.now(10) => self.d.of(&[0x73, 0x1_0073, 0x1_0000_0073]),
      _ => vk,
    };
    message(kind, wparam, lparam)
  }

  fn peeked(&mut self) -> Option<Message> {
    let d = &mut self.d;
    match d.below(20) {
      0..=5 => None,
      6..=9 => {
        let (kind, code) = (d.of(&[0x102, 0x102, 0x106]), self.character());
        Some(message(kind, code, self.lparam(0x02)))
      }
      10..=12 => {
        let kind = if d.now(85) { d.of(&KEY_KINDS) } else { d.of(&[0x0, 0x102, 0x12, 0x1_0100]) };
        Some(message(kind, 0x12, self.lparam(0xE038)))
      }
      13 => {
        let kind = d.of(&KEY_KINDS);
        // near E038
        Some(message(kind, 0xA5, d.of(&[0x38_0001, 0x100_0001, 0x138_0001, 0x139_0001, 0x1_0038_0001])))
      }
      _ => Some(self.message()),
    }
  }

  // ---- one call of a random script

  fn any(&mut self) -> Played {
    if self.d.now(12) {
      self.keyboard();
    }
    if self.manner == Manner::Hostile && self.d.now(35) {
      return self.hostile();
    }
    let (open, held) = (self.m.now().open(), self.m.now().held.is_some());
    let finish = match (self.manner, open) {
      (_, 0) => 0,
      (Manner::Deep, 1..=6) => 25,
      (Manner::Deep, 7) => 40,
      (Manner::Focus, 1) => 12,
      (Manner::Focus, _) => 40,
      (_, 8) => 70,
      _ => 55,
    };
    if self.d.now(finish) {
      let most = self.m.now().held.as_ref().is_some_and(|h| h.units.len() == 16);
      let peeked = match self.manner {
        Manner::Units if most && self.d.now(50) => None,
        // More is coming, so the press and its units stay.
        Manner::Units if self.d.now(93) => Some(message(0x102, 0x61, lparam(0x02))),
        _ => self.peeked(),
      };
      return self.finish(Token::Latest, peeked);
    }
    let m = match self.manner {
      Manner::Units if held && self.d.now(93) => {
        let code = if self.d.now(self.same) { self.code } else { self.character() };
        message(self.d.of(&[0x102, 0x106]), code, lparam(0x02))
      }
      Manner::Focus if self.d.now(40) => message(self.d.of(&[7, 8]), self.d.next(), self.d.next()),
      _ if held && self.d.now(30) => message(0x102, self.character(), lparam(0x02)),
      _ => self.message(),
    };
    self.bring(m)
  }
}

#[cfg(test)]
mod tests {
  use super::*;
  use crate::count::Case;

  #[test]
  fn a_seed_gives_one_script() {
    let mut g = Generator::new();
    let mut m = Machine::new();
    let show = |steps: &[Step]| format!("{steps:?}");
    let mut all = vec![];
    for seed in 0..200 {
      let one = g.script(seed, &mut m).map_err(|(_, d)| d).expect("no difference");
      let again = g.script(seed, &mut m).map_err(|(_, d)| d).expect("no difference");
      assert_eq!(show(&one), show(&again));
      all.push(show(&one));
    }
    all.sort();
    all.dedup();
    assert_eq!(all.len(), 200);
  }

  #[test]
  fn a_script_can_be_run_again() {
    let mut g = Generator::new();
    let (mut m, mut n) = (Machine::new(), Machine::new());
    for seed in 0..500 {
      let steps = g.script(seed, &mut m).map_err(|(_, d)| d).expect("no difference");
      n.run(&steps).expect("no difference");
    }
    assert_eq!(m.counts.of(Case::Refused), n.counts.of(Case::Refused));
  }

  #[test]
  fn every_manner_reaches_its_limits() {
    let mut g = Generator::new();
    let mut m = Machine::new();
    for seed in 0..4000 {
      g.script(seed, &mut m).map_err(|(_, d)| d).expect("no difference");
    }
    for case in [
      Case::Refused1,
      Case::Refused2,
      Case::Refused3,
      Case::Refused4,
      Case::Refused5,
      Case::Refused6,
      Case::Refused7,
      Case::Refused9,
      Case::Refused10,
      Case::Refused11,
      Case::Depth8,
      Case::PressFake,
      Case::ReleaseFake,
      Case::CharacterNone,
      Case::DropHandsOut,
      Case::OnePiece,
      Case::Several,
      Case::MostUnits,
      Case::Passing,
      Case::PassingTable,
      Case::OtherTable,
      Case::Gb3,
      Case::Gb4,
      Case::Gb5,
      Case::Gb6,
      Case::Gb7,
      Case::Gb8,
      Case::Gb9,
      Case::Gb9a,
      Case::Gb9b,
      Case::Gb11,
      Case::Gb12,
      Case::Gb13,
      Case::Gb999,
      Case::Aside,
    ] {
      assert!(m.counts.of(case) > 0);
    }
  }
}
