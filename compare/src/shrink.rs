//! Shortens a script that shows a difference, as long as it shows one.
use crate::{
  layouts::Layout,
  script::{message, state, Body, Message, Step, Token},
  tables::Table,
};
use std::sync::Arc;

/// The calls that all tries together may have: some half a minute's. Only a script of thousands of calls comes there.
const CALLS: usize = 2_000_000;

/// Where a try is a script that still fails, it is kept.
struct Shrinker<'a> {
  steps: Vec<Step>,
  fails: &'a mut dyn FnMut(&[Step]) -> bool,
  /// Calls left for tries.
  left: usize,
}

impl Shrinker<'_> {
  fn try_steps(&mut self, steps: Vec<Step>) -> bool {
    if steps.len() > self.left {
      return false;
    }
    self.left -= steps.len();
    let better = (self.fails)(&steps);
    if better {
      self.steps = steps;
    }
    better
  }

  /// Drops calls in chunks, large ones first.
  fn drop_chunks(&mut self) -> bool {
    let mut better = false;
    let mut size = self.steps.len();
    while size > 0 {
      let mut at = 0;
      while at < self.steps.len() {
        let end = (at + size).min(self.steps.len());
        let rest = self.steps[..at].iter().chain(&self.steps[end..]).cloned().collect();
        if self.try_steps(rest) {
          better = true;
        } else {
          at = end;
        }
      }
      size /= 2;
    }
    better
  }

  /// Drops an open together with its finish.
  fn drop_pairs(&mut self) -> bool {
    let mut better = false;
    let mut at = 0;
    while at < self.steps.len() {
      let dropped = pair(&self.steps, at).is_some_and(|finish| {
        let keep = |i: &usize| *i != at && *i != finish;
        let rest = (0..self.steps.len()).filter(keep).map(|i| self.steps[i].clone()).collect();
        self.try_steps(rest)
      });
      better |= dropped;
      at += usize::from(!dropped);
    }
    better
  }

  fn try_step(&mut self, at: usize, step: Step) -> bool {
    let mut steps = self.steps.clone();
    steps[at] = step;
    self.try_steps(steps)
  }

  /// Makes each call simpler.
  fn simplify(&mut self, layouts: &[Arc<Layout>], tables: &[Arc<Table>]) -> bool {
    let mut better = false;
    for at in 0..self.steps.len() {
      for simpler in simpler(&self.steps[at], layouts, tables) {
        if self.try_step(at, simpler) {
          better = true;
          break;
        }
      }
      better |= self.release_keys(at);
    }
    better
  }

  /// Sets key-state bytes of a call to 0, half of them first.
  fn release_keys(&mut self, at: usize) -> bool {
    let mut better = false;
    let mut size = 256;
    while size > 0 {
      for from in (0..256).step_by(size) {
        let mut keys = *self.steps[at].state;
        if keys[from..from + size].iter().all(|b| *b == 0) {
          continue;
        }
        keys[from..from + size].fill(0);
        let step = Step { state: Arc::new(keys), ..self.steps[at].clone() };
        better |= self.try_step(at, step);
      }
      size /= 2;
    }
    better
  }
}

/// The finish of the message that the call at `at` opens, if all goes as it looks.
fn pair(steps: &[Step], at: usize) -> Option<usize> {
  let opens =
    |s: &Step| matches!(s.body, Body::Open(Message { kind: 0x100 | 0x101 | 0x102 | 0x104 | 0x105 | 0x106, .. }));
  if !opens(&steps[at]) {
    return None;
  }
  let mut open = 0;
  for (i, step) in steps.iter().enumerate().skip(at) {
    match step.body {
      Body::Open(_) => open += usize::from(opens(step)),
      Body::Finish { .. } => open -= 1,
    }
    if open == 0 {
      return Some(i);
    }
  }
  None
}

fn simpler_messages(m: Message) -> Vec<Message> {
  let Message { kind, wparam, lparam } = m;
  let mut all = vec![
    message(kind, 0x31, 0x2_0001),
    message(kind, 0x31, lparam),
    message(kind, wparam, 0x2_0001),
    message(kind, wparam & 0xFFFF, lparam),
    message(kind, wparam & 0xFFFF_FFFF, lparam),
    message(kind, wparam, lparam & 0xFFFF_FFFF),
    message(kind, wparam, lparam & 0x1FF_0000 | 1),
    message(kind, wparam, lparam & !0xFE00_0000),
  ];
  let ordinary = match kind {
    0x104 => 0x100,
    0x105 => 0x101,
    0x106 => 0x102,
    0x107 => 0x103,
    other => other,
  };
  all.insert(0, message(ordinary, wparam, lparam));
  let size = |m: &Message| (m.kind, m.wparam.count_ones(), m.wparam, m.lparam.count_ones(), m.lparam);
  all.retain(|n| size(n) < size(&m));
  all
}

/// Simpler calls in its place, the simplest first. Each is smaller by some measure, so that shortening ends.
fn simpler(step: &Step, layouts: &[Arc<Layout>], tables: &[Arc<Table>]) -> Vec<Step> {
  let mut all = vec![];
  let mut with = |change: &dyn Fn(&mut Step)| {
    let mut s = step.clone();
    change(&mut s);
    all.push(s);
  };
  if step.state.iter().any(|b| *b != 0) {
    with(&|s| s.state = state(&[]));
  }
  let place = layouts.iter().position(|l| l.name == step.layout.name).unwrap_or(layouts.len());
  for l in &layouts[..place] {
    with(&|s| s.layout = l.clone());
  }
  let place = tables.iter().position(|t| t.name == step.table.name).unwrap_or(tables.len());
  for t in &tables[..place] {
    with(&|s| s.table = t.clone());
  }
  if step.fill.is_some() {
    with(&|s| s.fill = None);
  }
  for i in 0..step.odd.len() {
    with(&|s| {
      s.odd.remove(i);
    });
  }
  match step.body {
    Body::Open(m) => {
      for n in simpler_messages(m) {
        with(&|s| s.body = Body::Open(n));
      }
    }
    Body::Finish { token, peeked } => {
      if token != Token::Latest {
        with(&|s| s.body = Body::Finish { token: Token::Latest, peeked });
      }
      if let Some(m) = peeked {
        with(&|s| s.body = Body::Finish { token, peeked: None });
        for n in simpler_messages(m) {
          with(&|s| s.body = Body::Finish { token, peeked: Some(n) });
        }
      }
    }
  }
  all
}

/// The shortest script found. `layouts` and `tables` have the simplest first. `fails` says whether a script shows a
/// difference.
pub fn shrink(
  steps: Vec<Step>,
  layouts: &[Arc<Layout>],
  tables: &[Arc<Table>],
  fails: &mut dyn FnMut(&[Step]) -> bool,
) -> Vec<Step> {
  let mut s = Shrinker { steps, fails, left: CALLS };
  loop {
    let mut better = s.drop_chunks();
    better |= s.drop_pairs();
    better |= s.simplify(layouts, tables);
    if !better {
      return s.steps;
    }
  }
}

#[cfg(test)]
mod tests {
  use super::*;
  use crate::{generate::Generator, layouts::Layouts, run::Machine, script::Odd, tables::Tables};

  fn open(l: &Arc<Layout>, kind: u32, wparam: u64) -> Step {
    Step::new(l, &state(&[(0x31, 0x80), (0xA2, 0x80)]), Body::Open(message(kind, wparam, 0xC01D_0001)))
  }
  fn finish(l: &Arc<Layout>, kind: u32) -> Step {
    let peeked = Some(message(kind, 0x99, 0x1_4038_0001));
    Step::new(l, &state(&[(0x14, 1)]), Body::Finish { token: Token::Latest, peeked })
  }
  fn kind(s: &Step) -> u32 {
    match s.body {
      Body::Open(m) => m.kind,
      Body::Finish { .. } => 0,
    }
  }

  /// A long script of which two calls matter, and of one of them a key, and of the other what was peeked.
  #[test]
  fn what_matters_is_left() {
    let all = Layouts::new().all();
    let (l, m) = (&all[3], &all[2]);
    let mut steps: Vec<Step> = (0..40).flat_map(|i| [open(l, 0x101, i), finish(m, 0x102)]).collect();
    steps.insert(31, open(m, 0x104, 0x45));
    steps.insert(57, finish(l, 0x106).odd(Odd::StateLength(255)));
    let mut runs = 0;
    let mut fails = |s: &[Step]| {
      runs += 1;
      let press = s.iter().position(|s| matches!(s.body, Body::Open(m) if m.kind == 0x104 && s.state[0xA2] != 0));
      let last = s.iter().rposition(|s| {
        let more = matches!(s.body, Body::Finish { peeked: Some(m), .. } if m.kind == 0x106);
        more && !s.odd.is_empty()
      });
      matches!((press, last), (Some(a), Some(b)) if a < b)
    };
    assert!(fails(&steps));
    let short = shrink(steps, &all, &Tables::new().all(), &mut fails);
    assert_eq!(short.len(), 2);
    let down = |s: &Step| s.state.iter().enumerate().filter(|(_, b)| **b != 0).map(|(i, _)| i).collect::<Vec<_>>();
    assert_eq!((down(&short[0]), down(&short[1])), (vec![0xA2], vec![]));
    assert_eq!(short[0].body, Body::Open(message(0x104, 0x31, 0x2_0001)));
    let peeked = Some(message(0x106, 0x31, 0x2_0001));
    assert_eq!(short[1].body, Body::Finish { token: Token::Latest, peeked });
    assert_eq!(short[1].odd, [Odd::StateLength(255)]);
    assert_eq!([&short[0].layout.name, &short[1].layout.name], [&all[0].name; 2]);
    assert_eq!([&short[0].table.name, &short[1].table.name], ["none"; 2]);
    assert!(runs < 2000, "{runs}");
  }

  /// Where a finish alone is another script, an open takes its finish with it.
  #[test]
  fn pairs_go_together() {
    let all = Layouts::new().all();
    let l = &all[0];
    let steps =
      vec![open(l, 0x100, 1), open(l, 0x101, 2), open(l, 0x105, 3), finish(l, 0x7), finish(l, 0x7), finish(l, 0x7)];
    assert_eq!([0, 1, 2, 3].map(|at| pair(&steps, at)), [Some(5), Some(4), Some(3), None]);
    let balanced = |s: &[Step]| {
      let mut open = 0_i32;
      let fine = s.iter().all(|s| {
        open += if kind(s) == 0 { -1 } else { 1 };
        open >= 0
      });
      fine && open == 0 && s.iter().any(|s| kind(s) == 0x101)
    };
    assert!(balanced(&steps));
    let short = shrink(steps, &all, &[], &mut |s| balanced(s));
    assert_eq!(short.iter().map(kind).collect::<Vec<_>>(), [0x101, 0]);
  }

  /// With another counter of pieces in tao both sides part, and a press, its characters and their finishes are left.
  #[test]
  fn a_difference_is_found_and_shortened() {
    let all = Layouts::new().all();
    tao_oracle::set_counter(|_, t| t.chars().count());
    let mut g = Generator::new();
    let mut m = Machine::new();
    let stopped = (0..5000).find_map(|seed| g.script(seed, &mut m).err());
    let (steps, _) = stopped.expect("a difference");
    let short = shrink(steps, &all, &Tables::new().all(), &mut |s| Machine::new().run(s).is_err());
    tao_oracle::set_counter(tao_oracle::clusters);
    assert!(Machine::new().run(&short).is_ok());
    // a press and its finish, two characters, and the first one's finish; the second's is the closing
    assert!(short.len() <= 5, "{short:?}");
  }

  #[test]
  fn nothing_left_where_anything_fails() {
    let all = Layouts::new().all();
    let steps = vec![open(&all[0], 0x100, 1); 5];
    assert!(shrink(steps, &all, &[], &mut |_| true).is_empty());
  }
}
