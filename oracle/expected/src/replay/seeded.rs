//! Scripts from a fixed seed, of calls that the questions accept.
use super::{scripts, tao, Answer, Script, Step};
use crate::examples::{
  boards::Boards,
  tables::{small, unicode, Table, Tables},
};
use kbtypes::{Body, Call, LayoutSpec, Peeked, Slot, Snapshot};
use std::sync::Arc;

const SCRIPTS: usize = 96;
const CALLS: usize = 36;

/// xorshift64*.
pub struct Seeded(u64);

impl Seeded {
  pub fn new(seed: u64) -> Self {
    Seeded(seed)
  }

  fn next(&mut self) -> u64 {
    self.0 ^= self.0 >> 12;
    self.0 ^= self.0 << 25;
    self.0 ^= self.0 >> 27;
    self.0.wrapping_mul(0x2545_F491_4F6C_DD1D)
  }

  /// Below `n`.
  fn below(&mut self, n: usize) -> usize {
    (self.next() >> 11) as usize % n
  }

  /// `n` times in a hundred.
  fn now(&mut self, n: usize) -> bool {
    self.below(100) < n
  }

  fn of<T: Copy>(&mut self, all: &[T]) -> T {
    all[self.below(all.len())]
  }

  pub fn slot(&mut self) -> Slot {
    match self.below(6) {
      0 => Slot::DefaultProcedure,
      1 => Slot::Value(0),
      2 => Slot::Value(self.of(&[1, -1, 7, i64::MIN, i64::MAX])),
      _ => Slot::Value(self.next() as i64),
    }
  }
}

/// Virtual keys that the small layouts have, the modifiers, some that no layout has.
const KEYS: [u16; 34] = [
  0x03, 0x07, 0x08, 0x0D, 0x10, 0x11, 0x12, 0x13, 0x14, 0x1B, 0x20, 0x2E, 0x30, 0x31, 0x32, 0x33, 0x34, 0x35, 0x37,
  0x38, 0x45, 0x60, 0x73, 0x90, 0xA0, 0xA1, 0xA2, 0xA3, 0xA4, 0xA5, 0xB3, 0xDD, 0xDE, 0xFF,
];

const CHARACTERS: [u64; 50] = [
  0x31,
  0x61,
  0x65,
  0x41,
  0x11,
  0x1B,
  0x0D,
  0x0A,
  0x300,
  0x301,
  0x36F,
  0x2FF,
  0x370,
  0xE9,
  0x20AC,
  0xD7FF,
  0xE000,
  0xFFFF,
  0xD800,
  0xD83D,
  0xDBFF,
  0xDC00,
  0xDE00,
  0xDFFF,
  0x1_0000,
  0x1_F600,
  0x10_FFFF,
  0x11_0000,
  0xFFFF_FFFF,
  0x1_0000_0000,
  0x1_0000_D800,
  0x1_0000_0061,
  0xFFFF_FFFF_0000_0041,
  0xD83D_0000_0000,
  0x0,
  0x80,
  // some of each class
  0x600,
  0x903,
  0x94D,
  0x1100,
  0x1161,
  0x11A8,
  0xAC00,
  0x200D,
  0x200D,
  0x1_F1E6,
  0x1_F1E6,
  0x1_F3FB,
  0x1_F469,
  0x1_F469,
];

const OTHER_KINDS: [u32; 12] =
  [0x0, 0x6, 0x9, 0xFF, 0x108, 0x109, 0x1_0007, 0x1_0100, 0x1_0102, 0x1_0103, 0x8000_0101, 0xFFFF_FFFF];

/// How many messages are open, of which the last has this token.
fn open(seen: &Snapshot) -> (usize, Option<u32>) {
  let open: Vec<u32> = seen.entries.iter().filter(|(_, complete)| !complete).map(|(token, _)| *token).collect();
  (open.len(), open.last().copied())
}

fn units(seen: &Snapshot) -> Option<usize> {
  seen.held.as_ref().map(|(_, _, units)| units.len())
}

/// Whether a message opens: the kinds of docs/SCOPE.md, 2.3, but for what is ignored.
fn opens(seen: &Snapshot, kind: u32, wparam: u64) -> bool {
  match kind {
    0x100 | 0x101 | 0x105 => true,
    0x104 => wparam != 0x73,
    0x102 | 0x106 => seen.held.is_some(),
    _ => false,
  }
}

/// Questions 5 to 9, and somewhat more: no script comes near 256 entries or 4,096 tokens.
fn accepted(seen: &Snapshot, kind: u32, wparam: u64) -> bool {
  let room = open(seen).0 < 8;
  let held = units(seen);
  match kind {
    0x103 | 0x107 => held.is_some(),
    // at most two units come in one message
    0x102 | 0x106 => held.is_none_or(|n| room && n <= 14),
    0x7 | 0x8 => seen.entries.len() <= 100,
    _ => room || !opens(seen, kind, wparam),
  }
}

struct Player<'a> {
  seeded: &'a mut Seeded,
  layouts: &'a [Arc<LayoutSpec>],
  tables: &'a [Table],
  layout: Arc<LayoutSpec>,
  table: Table,
  state: Arc<[u8; 256]>,
  steps: Vec<Step>,
  seen: Snapshot,
}

impl Player<'_> {
  /// Adds a call and looks at tao behind it.
  fn add(&mut self, body: Body) {
    let ranges = self.table.ranges.clone().expect("a table");
    let call = Call { body, state: self.state.clone(), layout: self.layout.clone(), table: ranges };
    let lent = self.seeded.slot();
    let table = self.table.clone();
    self.steps.push(Step { call: call.clone(), table: table.clone(), lent, handed_on: false, refused: None });
    let before = open(&self.seen).0;
    let left = match body {
      Body::Open { kind, wparam, .. } => before + usize::from(opens(&self.seen, kind, wparam)),
      Body::Finish { .. } => before - 1,
    };
    // tao runs to its end, so what is open is closed behind the last call
    let body = Body::Finish { token: 0, peeked: None };
    let close = Step { call: Call { body, ..call }, table, lent, handed_on: false, refused: None };
    let all: Vec<&Step> = self.steps.iter().chain((0..left).map(|_| &close)).collect();
    match tao(&all).swap_remove(self.steps.len() - 1) {
      Answer::Answered { seen, .. } => self.seen = seen,
      Answer::Refused(_) => unreachable!(),
    }
  }

  fn keyboard(&mut self) {
    self.layout = self.layouts[self.seeded.below(self.layouts.len())].clone();
    self.table = self.tables[self.seeded.below(self.tables.len())].clone();
    let mut state = [0; 256];
    let busy = self.seeded.of(&[0, 4, 15]);
    for vk in KEYS {
      if self.seeded.now(busy) {
        state[usize::from(vk)] = self.seeded.of(&[0x80, 0x80, 0x81, 0x01, 0x7F, 0xFF]);
      }
    }
    for set in [&[0x11, 0xA2][..], &[0x10, 0xA1], &[0x12, 0xA4], &[0x11, 0x12, 0xA2, 0xA5], &[0x14], &[0x90]] {
      if self.seeded.now(12) {
        let byte = if set.len() == 1 { 0x01 } else { 0x80 };
        set.iter().for_each(|vk| state[*vk] = byte);
      }
    }
    self.state = Arc::new(state);
  }

  fn key(&mut self) -> (u64, u64) {
    let vk = match self.seeded.below(20) {
      0 => self.seeded.next() as u16,
      1 => self.seeded.of(&KEYS) | 0x100,
      _ => self.seeded.of(&KEYS),
    };
    let high = if self.seeded.now(5) { self.seeded.next() << 16 } else { 0 };
    let own = self.layout.scan_of_vk.get(usize::from(vk)).copied().unwrap_or(0);
    let scan = match self.seeded.below(10) {
      0 => 0,
      1 => self.seeded.next() as u16,
      2 => self.seeded.of(&[0x02, 0x1D, 0x38, 0xE038, 0x45, 0xE045, 0xE046, 0x54, 0xE037, 0x7F]),
      _ => own,
    };
    (high | u64::from(vk), self.lparam(scan))
  }

  fn lparam(&mut self, scan: u16) -> u64 {
    let extended = u64::from(scan > 0xFF) ^ u64::from(self.seeded.now(4));
    let top = self.seeded.of(&[0, 0, 1, 3, 3, 2]) << 30;
    let high = if self.seeded.now(5) { self.seeded.next() << 32 } else { 0 };
    high | top | extended << 24 | u64::from(scan & 0xFF) << 16 | 1
  }

  fn character(&mut self) -> u64 {
    if self.seeded.now(4) {
      self.seeded.next()
    } else {
      self.seeded.of(&CHARACTERS)
    }
  }

  fn message(&mut self) -> (u32, u64, u64) {
    let kind = match self.seeded.below(100) {
      0..=24 => 0x100,
      25..=44 => 0x101,
      45..=67 => 0x102,
      68..=73 => 0x103,
      74..=78 => 0x104,
      79..=82 => 0x105,
      83..=87 => 0x106,
      88..=89 => 0x107,
      90..=92 => 0x7,
      93..=95 => 0x8,
      _ => self.seeded.of(&OTHER_KINDS),
    };
    let (vk, lparam) = self.key();
    match kind {
      0x102 | 0x103 | 0x106 | 0x107 => (kind, self.character(), lparam),
      _ => (kind, vk, lparam),
    }
  }

  fn peeked(&mut self) -> Option<Peeked> {
    let (kind, wparam, lparam) = match self.seeded.below(10) {
      0..=2 => return None,
      3..=5 => (self.seeded.of(&[0x102, 0x102, 0x106]), self.character(), self.lparam(0x02)),
      6 => (self.seeded.of(&[0x100, 0x101, 0x104, 0x105, 0x0]), 0x12, self.lparam(0xE038)),
      _ => self.message(),
    };
    Some(Peeked { kind, wparam, lparam })
  }

  fn step(&mut self) {
    if self.steps.is_empty() || self.seeded.now(15) {
      self.keyboard();
    }
    let (count, latest) = open(&self.seen);
    if let Some(token) = latest {
      if self.seeded.now(if count < 8 { 55 } else { 70 }) {
        let peeked = self.peeked();
        return self.add(Body::Finish { token, peeked });
      }
    }
    let (kind, wparam, lparam) = match self.seeded.now(35) && self.seen.held.is_some() {
      true => (0x102, self.character(), self.lparam(0x02)),
      false => self.message(),
    };
    if accepted(&self.seen, kind, wparam) {
      self.add(Body::Open { kind, wparam, lparam });
    }
  }
}

/// Scripts of some forty calls each, at whose end all is closed.
pub fn scripts(seeded: &mut Seeded, us: &Arc<LayoutSpec>) -> Vec<Script> {
  let boards = Boards::new();
  let few = [&boards.us, &boards.german, &boards.german, &boards.odd, &boards.moved];
  let mut layouts: Vec<Arc<LayoutSpec>> = few.iter().map(|b| b.layout.clone()).collect();
  layouts.extend([Arc::new(scripts::natives()), us.clone()]);
  let tables = [small(), small(), unicode(), unicode(), scripts::odd_table(), Tables::new().no_ranges];
  let script = |n: usize| {
    let seen = Snapshot { handed: 0, entries: vec![], held: None };
    let state = Arc::new([0; 256]);
    let mut p = Player {
      seeded,
      layouts: &layouts,
      tables: &tables,
      layout: us.clone(),
      table: small(),
      state,
      steps: vec![],
      seen,
    };
    while p.steps.len() < CALLS {
      p.step();
    }
    while let (_, Some(token)) = open(&p.seen) {
      let peeked = p.peeked();
      p.add(Body::Finish { token, peeked });
    }
    Script { name: format!("seeded-{n}"), steps: p.steps }
  };
  (1..=SCRIPTS).map(script).collect()
}
