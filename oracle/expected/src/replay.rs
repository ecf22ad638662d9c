//! The calls of crates/replay with tao's answers: scripts written by hand, and seeded ones.
use crate::examples::{
  boards::Boards,
  scripts as by_hand,
  tables::{Table, Tables},
};
use kbtypes::{Body, Call, Event, LayoutSpec, Slot, Snapshot};
use std::sync::Arc;
use tao_oracle::run_script;

mod format;
mod lengths;
mod scripts;
mod seeded;

use seeded::Seeded;

/// A call with its table as bytes, what `result` is before it, whether that is what the open before it left, and the number with which docs/SCOPE.md, 6, refuses
/// it. tao is not given a refused call.
#[derive(Clone)]
pub struct Step {
  pub call: Call,
  pub table: Table,
  pub lent: Slot,
  pub handed_on: bool,
  pub refused: Option<u8>,
}

pub struct Script {
  pub name: String,
  pub steps: Vec<Step>,
}

#[derive(Debug, PartialEq)]
pub enum Answer {
  Refused(u8),
  /// The token of the message that it opened, what `result` is then, the events handed out, and what is then to be seen
  /// of tao's builder.
  Answered {
    token: Option<u32>,
    result: Slot,
    events: Vec<Event>,
    seen: Snapshot,
  },
}

/// tao's answers to calls, none of which is refused.
fn tao(steps: &[&Step]) -> Vec<Answer> {
  let calls: Vec<Call> = steps.iter().map(|s| s.call.for_tao()).collect();
  let calls: Vec<&Call> = calls.iter().collect();
  let slots: Vec<Slot> = steps.iter().map(|s| s.lent).collect();
  let run = run_script(&calls, &slots);
  assert!(run.panicked.is_none() && run.problem.is_none(), "{:?} {:?}", run.panicked, run.problem);
  let answer = |a: Option<tao_oracle::OracleAnswer>| {
    let a = a.expect("an answer for each call");
    let token = a.opened.then(|| a.snapshot.handed - 1);
    Answer::Answered { token, result: a.slot, events: a.events, seen: a.snapshot }
  };
  let answers: Vec<Answer> = run.answers.into_iter().map(answer).collect();
  assert_eq!(answers.len(), steps.len());
  answers
}

/// The answers to a script, and whether its finishes name the latest open message.
fn answers(script: &Script) -> Vec<Answer> {
  let asked: Vec<&Step> = script.steps.iter().filter(|s| s.refused.is_none()).collect();
  let mut given = tao(&asked).into_iter();
  let mut open = vec![];
  let mut answer = |step: &Step| {
    if let Some(number) = step.refused {
      return Answer::Refused(number);
    }
    let a = given.next().unwrap();
    if let Body::Finish { token, .. } = step.call.body {
      assert_eq!(open.pop(), Some(token), "{}: not the latest open message", script.name);
    }
    if let Answer::Answered { token, .. } = &a {
      open.extend(*token);
    }
    a
  };
  let answers = script.steps.iter().map(&mut answer).collect();
  assert!(open.is_empty(), "{}: open at the end", script.name);
  answers
}

/// The worked examples' scripts, from their first call on, but for the one with 4,096 tokens: crates/limits has it.
/// In `calls` their names are written with dashes.
fn examples(lent: &mut Seeded) -> Vec<Script> {
  let all = by_hand::examples(&Boards::new(), &Tables::new());
  let all = all.into_iter().filter(|e| e.name != "tokens");
  all
    .map(|e| {
      let before = match e.start {
        by_hand::Start::Fresh => vec![],
        by_hand::Start::Behind { calls, .. } => calls,
      };
      Script { name: e.name.replace('_', "-"), steps: steps(lent, before.into_iter().chain(e.steps)) }
    })
    .collect()
}

fn steps(lent: &mut Seeded, steps: impl IntoIterator<Item = by_hand::Step>) -> Vec<Step> {
  let step = |s: by_hand::Step| {
    let (call, refused) = (s.call(), s.refused);
    Step { call, table: s.table, lent: lent.slot(), handed_on: false, refused }
  };
  steps.into_iter().map(step).collect()
}

/// Hands `result` on from open to open; every fourth begins with a new one. tao says what an open leaves, so it is asked until nothing changes.
fn hand_on(script: &mut Script) {
  loop {
    let answers = answers(script);
    let opens = script.steps.iter_mut().zip(answers).filter(|(s, _)| matches!(s.call.body, Body::Open { .. }));
    let mut last = None;
    let mut changed = false;
    for (i, (step, answer)) in opens.enumerate() {
      if let Some(last) = last.filter(|_| i % 4 != 0) {
        changed |= step.lent != last;
        step.lent = last;
        step.handed_on = true;
      }
      last = match answer {
        Answer::Refused(_) => Some(step.lent),
        Answer::Answered { result, .. } => Some(result),
      };
    }
    if !changed {
      return;
    }
  }
}

/// The bytes that crates/replay has room for.
const SPACE: usize = 524_288;

pub struct Files {
  pub calls: Vec<u8>,
  pub stdout: String,
}

fn all(us: &LayoutSpec) -> Vec<Script> {
  let us = Arc::new(us.clone());
  let mut seeded = Seeded::new(37);
  let mut all = examples(&mut seeded);
  for (name, calls) in scripts::scripts(&us) {
    all.push(Script { name: name.into(), steps: steps(&mut seeded, calls) });
  }
  all.extend(seeded::scripts(&mut seeded, &us));
  for (name, calls) in lengths::scripts() {
    all.push(Script { name, steps: steps(&mut seeded, calls) });
  }
  all.iter_mut().for_each(hand_on);
  all
}

pub fn output(us: &LayoutSpec) -> Files {
  let all = all(us);
  let answers: Vec<Vec<Answer>> = all.iter().map(answers).collect();
  let calls = format::write(&all, &answers);
  assert!(calls.len() <= SPACE, "{} bytes", calls.len());

  let mut stdout = String::new();
  let mut sum = (0, 0);
  for (script, answers) in all.iter().zip(&answers) {
    let events = |a: &Answer| match a {
      Answer::Refused(_) => 0,
      Answer::Answered { events, .. } => events.len(),
    };
    let events: usize = answers.iter().map(events).sum();
    stdout += &format!("{}: {} calls, {events} events\n", script.name, answers.len());
    sum = (sum.0 + answers.len(), sum.1 + events);
  }
  stdout += &format!("{} scripts, {} calls, {} events: all as tao answered\n", all.len(), sum.0, sum.1);
  Files { calls, stdout }
}

#[cfg(test)]
mod tests {
  use super::*;
  use kbtypes::{ElementState, Key, Location, Native};
  use std::collections::BTreeSet;

  /// `result` goes from open to open, and of what is handed on both kinds are kept and set.
  #[test]
  fn handed_on() {
    let mut seen = BTreeSet::new();
    for script in all(&crate::keyboard::us()) {
      let mut last = None;
      for (step, answer) in script.steps.iter().zip(answers(&script)) {
        let Body::Open { .. } = step.call.body else { continue };
        let result = match answer {
          Answer::Refused(_) => step.lent,
          Answer::Answered { result, .. } => result,
        };
        if step.handed_on {
          assert_eq!(last, Some(step.lent), "{}", script.name);
          seen.insert((step.lent == Slot::DefaultProcedure, step.lent == result));
        }
        last = Some(result);
      }
    }
    assert_eq!(seen.len(), 4);
  }

  /// What the scripts reach, beyond what their names say.
  #[test]
  fn reached() {
    let all = all(&crate::keyboard::us());
    let answers: Vec<Answer> = all.iter().flat_map(answers).collect();
    let mut refusals = BTreeSet::new();
    let (mut depth, mut handed_out) = (0, 0);
    let mut events = vec![];
    for a in answers {
      match a {
        Answer::Refused(number) => {
          refusals.insert(number);
        }
        Answer::Answered { seen, events: some, .. } => {
          depth = depth.max(seen.entries.iter().filter(|(_, complete)| !complete).count());
          handed_out = handed_out.max(some.len());
          events.extend(some);
        }
      }
    }
    assert_eq!((refusals, depth, handed_out), ([5, 6, 7, 9, 10, 11].into(), 8, 256));

    let reached = |test: &dyn Fn(&Event) -> bool| assert!(events.iter().any(test));
    for location in [Location::Standard, Location::Left, Location::Right, Location::Numpad] {
      reached(&|e| e.location == location && e.state == ElementState::Pressed && !e.synthetic);
      reached(&|e| e.location == location && e.state == ElementState::Released && e.synthetic);
    }
    let natives =
      [Native::Unidentified, Native::Windows(0xBEEF), Native::MacOS(0x12), Native::Gtk(0xFFFF), Native::Android(-2)];
    for native in natives {
      reached(&|e| e.logical_key == Key::Unidentified(native) && !e.synthetic);
      reached(&|e| e.logical_key == Key::Unidentified(native) && e.synthetic);
    }
    for text in ["\r\n", "e\u{301}\u{36F}", "😀", "\u{10FFFF}", "👨\u{200D}👩", "🇩🇪", "\u{1100}\u{1161}\u{11A8}"]
    {
      reached(&|e| e.logical_key == Key::Character(text.into()) && e.text.as_deref() == Some(text));
    }
    reached(&|e| e.text.as_deref() == Some("\0\0"));
    reached(&|e| e.text.as_ref().is_some_and(|t| t.len() == 48));
    reached(&|e| e.repeat && e.text.is_some());
    reached(&|e| e.text != e.text_with_all_modifiers);
  }
}
