//! Every length around each limit. What is refused, and with which number, is written here by hand from docs/SCOPE.md, 6.
use crate::{
  layouts::{Layout, Layouts},
  library::AREA,
  run::{Difference, Machine, Stopped},
  script::{lparam, message, state, up, Body, Message, Odd, State, Step, Token},
  tables::small,
};
use std::sync::Arc;

mod blocks;
mod readers;
mod tables;

/// A script, and the number that each call gets: 0 where it is answered.
struct Case {
  name: String,
  layout: Arc<Layout>,
  keys: State,
  steps: Vec<Step>,
  said: Vec<u32>,
}

impl Case {
  fn new(name: impl Into<String>, layout: &Arc<Layout>) -> Self {
    Case { name: name.into(), layout: layout.clone(), keys: state(&[]), steps: vec![], said: vec![] }
  }
  fn step(&mut self, number: u32, step: Step) -> &mut Self {
    self.steps.push(step);
    self.said.push(number);
    self
  }
  fn plain(&self, body: Body) -> Step {
    Step::new(&self.layout, &self.keys, body)
  }
  fn open(&mut self, number: u32, kind: u32, wparam: u64, lparam: u64) -> &mut Self {
    let step = self.plain(Body::Open(message(kind, wparam, lparam)));
    self.step(number, step)
  }
  fn finish(&mut self, number: u32, peeked: Option<Message>) -> &mut Self {
    let step = self.plain(Body::Finish { token: Token::Latest, peeked });
    self.step(number, step)
  }
  fn with_keys(&mut self, keys: &State) -> &mut Self {
    self.keys = keys.clone();
    self
  }
  fn more(&mut self) -> &mut Self {
    self.finish(0, Some(message(0x102, 0x31, lparam(0x02))))
  }
  /// A press of the key 1 that is held.
  fn held(&mut self) -> &mut Self {
    self.open(0, 0x100, 0x31, lparam(0x02)).more()
  }
  /// A token that leaves no entry, with the AltGr flag: a release of Control that is fake.
  fn fake(&mut self) -> &mut Self {
    self.open(0, 0x101, 0x11, up(0x1D)).finish(0, Some(message(0x101, 0x12, up(0xE038))))
  }
  fn odd(&mut self, number: u32, body: Body, odd: &[Odd]) -> &mut Self {
    let mut step = self.plain(body);
    step.odd = odd.to_vec();
    self.step(number, step)
  }
}

const OPENING: [u32; 6] = [0x100, 0x101, 0x102, 0x104, 0x105, 0x106];

/// The first `n` virtual keys that a focus message has an event for are down.
fn keys_down(n: usize) -> State {
  let mut keys = [0; 256];
  let events = (0..256).filter(|vk| !(0x10..=0x12).contains(vk));
  events.take(n).for_each(|vk| keys[vk] = 0x80);
  Arc::new(keys)
}

fn open_messages(l: &Layouts) -> Vec<Case> {
  let mut all = vec![];
  for (i, ninth) in OPENING.into_iter().enumerate() {
    let mut c = Case::new(format!("the ninth message is {ninth:X}"), &l.accent);
    c.held();
    for n in 0..8 {
      c.open(0, OPENING[(n + i) % 6], 0x61, lparam(0x1E));
    }
    c.open(6, ninth, 0x61, lparam(0x1E));
    // what opens nothing passes
    c.open(0, 0x104, 0x73, lparam(0x3E)).open(0, 0x7, 0, 0).open(0, 0x8, 0, 0).open(0, 0x12, 0, 0);
    c.open(0, 0x103, 0xB4, lparam(0x0D)).open(5, 0x107, 0xB4, lparam(0x0D)).open(0, 0x102, 0x61, lparam(0x1E));
    c.finish(0, None).open(0, 0x100, 0x31, lparam(0x02)).open(6, 0x101, 0x31, up(0x02));
    all.push(c);
  }
  all
}

fn entries(l: &Layouts) -> Vec<Case> {
  let most = keys_down(253);
  let mut all = vec![];
  for (last, number) in [(1, 0), (2, 0), (3, 7), (4, 7), (253, 7)] {
    let mut c = Case::new(format!("254 entries and a focus message with {last} events"), &l.full);
    c.held().open(0, 0x100, 0x31, lparam(0x32));
    c.with_keys(&most).open(0, 0x8, 0, 0).with_keys(&keys_down(last)).open(number, 0x7, 0, 0);
    let one = if last == 2 { 7 } else { 0 };
    c.with_keys(&state(&[])).open(0, 0x7, 0, 0).open(0, 0x12, 0, 0).open(0, 0x104, 0x73, 1);
    c.open(one, 0x101, 0x31, up(0x32));
    c.open(if last == 1 { 7 } else { one }, 0x103, 0xB4, lparam(0x0D));
    all.push(c);
  }
  for kind in OPENING {
    let mut c = Case::new(format!("{kind:X} at 255 and at 256 entries"), &l.full);
    c.held().open(0, 0x100, 0x31, lparam(0x32));
    c.with_keys(&most).open(0, 0x8, 0, 0).with_keys(&keys_down(1)).open(0, 0x8, 0, 0).with_keys(&state(&[]));
    c.open(0, kind, 0x61, lparam(0x1E)).open(7, kind, 0x61, lparam(0x1E));
    all.push(c);
  }
  // 6 comes before 7
  let mut c = Case::new("eight open and 256 entries", &l.full);
  c.held();
  for _ in 0..8 {
    c.open(0, 0x102, 0x61, 1);
  }
  c.with_keys(&keys_down(248)).open(0, 0x7, 0, 0).open(7, 0x8, 0, 0).with_keys(&state(&[]));
  c.open(6, 0x100, 0x31, 1).open(7, 0x107, 0x31, 1).open(0, 0x8, 0, 0);
  all.push(c);
  all
}

fn tokens(l: &Layouts) -> Vec<Case> {
  let mut all = vec![];
  // the first press has token 0; the fakes lead to this number handed out
  let upto = |name: String, handed: usize| {
    let mut c = Case::new(name, &l.accent);
    c.held().open(0, 0x100, 0x31, lparam(0x02));
    for _ in 1..handed {
      c.fake();
    }
    c
  };
  for kind in OPENING {
    let mut c = upto(format!("the 4,096th and the 4,097th token: {kind:X}"), 4095);
    c.open(0, kind, 0x61, lparam(0x1E)).open(8, kind, 0x61, lparam(0x1E)).open(0, 0x12, 0, 0).open(0, 0x7, 0, 0);
    c.open(8, 0x103, 0xB4, 1).finish(0, None).open(8, 0x101, 0x31, up(0x02)).finish(0, None);
    c.open(0, 0x101, 0x31, up(0x02));
    all.push(c);
  }
  for (handed, number) in [(4093, 0), (4094, 0), (4095, 8), (4096, 8)] {
    let mut c = upto(format!("{handed} tokens and a focus message with two events"), handed);
    c.with_keys(&state(&[(0x31, 0x80), (0x14, 0x80)])).open(number, 0x7, 0, 0).with_keys(&state(&[]));
    c.open(0, 0x8, 0, 0).open(if handed == 4093 || handed == 4095 { 0 } else { 8 }, 0x107, 0xB4, 1);
    all.push(c);
  }
  // 7 comes before 8, and 5 before both
  let mut c = upto("4,096 tokens and 256 entries".into(), 4096 - 255);
  let full = Step { layout: l.full.clone(), state: keys_down(253), ..c.plain(Body::Open(message(0x8, 0, 0))) };
  c.step(0, full);
  c.with_keys(&state(&[(0x31, 0x80)])).open(0, 0x7, 0, 0).open(0, 0x7, 0, 0).open(7, 0x7, 0, 0);
  c.with_keys(&state(&[])).open(7, 0x100, 0x31, 1).open(7, 0x102, 0x31, 1).open(0, 0x8, 0, 0);
  c.finish(0, None).open(5, 0x103, 0, 0);
  all.push(c);
  // 8 comes before 9
  let mut c = upto("4,096 tokens and sixteen units".into(), 4096 - 8);
  for _ in 0..8 {
    c.open(0, 0x102, 0x1_F600, lparam(0x02)).more();
  }
  c.open(8, 0x102, 0x61, lparam(0x02));
  all.push(c);
  all
}

fn units(l: &Layouts) -> Vec<Case> {
  let mut all = vec![];
  for (code, each) in [(0x61, 1), (0x20AC, 1), (0xD83D, 1), (0x1_F600, 2), (0x11_0000, 2), (0x1_0000_D800, 2)] {
    for first in 0..2 {
      let mut c = Case::new(format!("units of {code:X} behind {first}"), &l.plain);
      c.held();
      let mut units = first;
      if first == 1 {
        c.open(0, 0x102, 0x65, lparam(0x12)).more();
      }
      while units + each <= 16 {
        c.open(0, 0x106, code, lparam(0x02)).more();
        units += each;
      }
      c.open(9, 0x102, code, lparam(0x02)).open(9, 0x106, 0x1_F600, lparam(0x02));
      if units == 15 {
        c.open(0, 0x102, 0xDE00, lparam(0x02)).more();
      }
      c.open(9, 0x102, 0x61, lparam(0x02));
      // eight open: 6 comes before 9
      for _ in 0..8 {
        c.open(0, 0x101, 0x31, up(0x02));
      }
      c.open(6, 0x102, 0x61, lparam(0x02));
      // a press without units is held in its place
      c.finish(0, None).open(0, 0x100, 0x31, lparam(0x02)).more().open(0, 0x102, code, lparam(0x02)).finish(0, None);
      all.push(c);
    }
  }
  // the whole text comes out
  for (code, each) in [(0x61, 1), (0x20AC, 1), (0x1_F600, 2), (0x11_0000, 2)] {
    let mut c = Case::new(format!("sixteen units of {code:X} come out"), &l.plain);
    c.held();
    for _ in 1..16 / each {
      c.open(0, 0x102, code, lparam(0x02)).more();
    }
    c.open(0, 0x102, code, lparam(0x02)).finish(0, None);
    all.push(c);
  }
  all
}

/// Wrong lengths of one input, and the right one.
fn length(l: &Arc<Layout>, number: u32, odd: fn(usize) -> Odd, wrong: &[usize], right: usize) -> Case {
  let press = Body::Open(message(0x100, 0x31, lparam(0x02)));
  let focus = Body::Open(message(0x7, 0, 0));
  let alone = Body::Finish { token: Token::Latest, peeked: None };
  let mut c = Case::new(format!("lengths: {:?}", odd(right)), l);
  c.with_keys(&state(&[(0x31, 0x80)]));
  for n in wrong {
    c.odd(number, press, &[odd(*n)]).odd(number, alone, &[odd(*n)]).odd(number, focus, &[odd(*n)]);
  }
  c.odd(0, press, &[odd(right)]).odd(0, focus, &[odd(right)]).odd(0, alone, &[odd(right)]);
  c
}

fn lengths(l: &Layouts) -> Vec<Case> {
  let l = &l.accent;
  let own = l.block.len();
  let areas = [0, 1, 2, 109, 65_535, 65_537, 65_600];
  let blocks = [0, 1, 2, 74, 2633, 2634, own - 1, own + 1, own + 16, 65_536, 65_537];
  let table = small().bytes.len();
  let tables = [0, 1, 7, 8, 9, 17, table - 9, table - 1, table + 1, table + 9, 65_536, 65_537];
  vec![
    length(l, 1, Odd::SessionLength, &areas, AREA),
    length(l, 1, Odd::AnswersLength, &areas, AREA),
    length(l, 2, Odd::StateLength, &[0, 1, 128, 255, 257, 512, 65_536], 256),
    length(l, 3, Odd::BlockLength, &blocks, own),
    length(l, 11, Odd::TableLength, &tables, table),
  ]
}

/// The first question that is answered with no gives the number, whatever the later ones say.
fn order(l: &Layouts) -> Vec<Case> {
  let odd = [
    (1, vec![Odd::AnswersLength(65_535)]),
    (2, vec![Odd::StateLength(257)]),
    (3, vec![Odd::BlockByte(1, 1)]),
    (11, vec![Odd::TableByte(0, 1)]),
    (4, vec![Odd::SessionByte(65_535, 1)]),
  ];
  let dead = Body::Open(message(0x103, 0xB4, 1));
  let wrong = Body::Finish { token: Token::Off(1), peeked: None };
  let mut c = Case::new("several questions", &l.accent);
  c.open(0, 0x100, 0x31, lparam(0x02));
  for mask in 0..32 {
    let some: Vec<&(u32, Vec<Odd>)> = odd.iter().enumerate().filter(|(i, _)| mask >> i & 1 == 1).map(|o| o.1).collect();
    let all: Vec<Odd> = some.iter().flat_map(|o| o.1.clone()).collect();
    let first = some.first().map(|o| o.0);
    c.odd(first.unwrap_or(5), dead, &all).odd(first.unwrap_or(10), wrong, &all);
  }
  vec![c]
}

fn wrong_tokens(l: &Layouts) -> Vec<Case> {
  let mut c = Case::new("tokens of a finish", &l.plain);
  let finish = |token| Body::Finish { token, peeked: None };
  for n in [0, 1, 255, 65_536, u32::MAX] {
    c.odd(10, finish(Token::Number(n)), &[]);
  }
  for n in 0..8 {
    c.open(0, 0x101, 0x31, up(0x02));
    for off in [1, 2, u32::MAX, 256, 4096, 65_536, 1 << 31] {
      c.odd(10, finish(Token::Off(off)), &[]);
    }
    if n > 0 {
      c.odd(10, finish(Token::Number(0)), &[]);
    }
  }
  for _ in 0..8 {
    c.finish(0, None);
  }
  c.odd(10, finish(Token::Number(0)), &[]);
  vec![c]
}

/// Runs all. Gives the number of scripts.
pub fn run(m: &mut Machine) -> Result<usize, (String, Stopped)> {
  let l = Layouts::new();
  let groups = [
    open_messages(&l),
    entries(&l),
    tokens(&l),
    units(&l),
    lengths(&l),
    order(&l),
    wrong_tokens(&l),
    blocks::cases(),
    tables::cases(&l),
  ];
  let all: Vec<Case> = groups.into_iter().flatten().collect();
  for c in &all {
    let outcome = m.run(&c.steps).and_then(|()| match m.said.iter().zip(&c.said).position(|(a, b)| a != b) {
      None => Ok(()),
      Some(at) => Err(Difference { at, what: format!("refusal {}, by hand {}", m.said[at], c.said[at]) }),
    });
    outcome.map_err(|d| (c.name.clone(), (c.steps.clone(), d)))?;
  }
  readers::check().map_err(|what| ("readers".to_string(), (vec![], Difference { at: 0, what })))?;
  Ok(all.len())
}
