//! Worked examples for crates/examples: lists of calls, and what tao answers to each.
use kbtypes::{Body, Event, Slot, Snapshot};
use std::collections::BTreeSet;
use tao_oracle::run_script;

mod antt;
pub mod boards;
pub mod scripts;
pub mod tables;

use boards::Boards;
use scripts::{Example, Start, Step};
use tables::Tables;

/// What a step answers.
#[derive(Debug, PartialEq)]
enum Answer {
  Refused(u8),
  /// The token of the message that it opened, what `result` is then, and the events handed out.
  Answered(Option<u32>, Slot, Vec<Event>),
}

/// What `result` is before each call.
const LENT: Slot = Slot::Value(7);

/// The answers of tao, each with what is then to be seen of its builder.
fn tao(steps: &[Step]) -> Vec<(Answer, Option<Snapshot>)> {
  let calls: Vec<_> = steps.iter().filter(|s| s.refused.is_none()).map(|s| s.call().for_tao()).collect();
  let calls: Vec<_> = calls.iter().collect();
  let run = run_script(&calls, &vec![LENT; calls.len()]);
  assert!(run.panicked.is_none() && run.problem.is_none(), "{:?} {:?}", run.panicked, run.problem);
  let mut answers = run.answers.into_iter().flatten();
  let mut open = Vec::new();
  let answer = |step: &Step| match step.refused {
    Some(number) => (Answer::Refused(number), None),
    None => {
      let a = answers.next().expect("an answer for each call");
      let token = a.opened.then(|| a.snapshot.handed - 1);
      open.extend(token);
      if let Body::Finish { token, .. } = step.body {
        assert_eq!(open.pop(), Some(token), "the token is not that of the latest open message");
      }
      (Answer::Answered(token, a.slot, a.events), Some(a.snapshot))
    }
  };
  let answers: Vec<_> = steps.iter().map(answer).collect();
  assert!(open.is_empty(), "open at the end");
  answers
}

/// The session from which an example begins, and the answers to its steps.
fn answers(e: &Example) -> (String, Vec<Answer>) {
  let (before, waiting) = match &e.start {
    Start::Fresh => (&[][..], 0),
    Start::Behind { calls, waiting } => (&calls[..], *waiting),
  };
  let all: Vec<Step> = before.iter().chain(&e.steps).cloned().collect();
  let mut all = tao(&all);
  let after = all.split_off(before.len());
  let start = all.pop().map_or("fresh_session".into(), |(_, seen)| {
    let seen = seen.unwrap();
    // one message is open, nothing is held
    assert_eq!((seen.held, seen.entries.len()), (None, 1 + waiting));
    assert!(seen.entries.iter().enumerate().all(|(i, (token, done))| *token == i as u32 && *done == (i > 0)));
    let Body::Open { wparam, lparam, .. } = before[0].body else { panic!("a finish first") };
    let press = format!("waiting 0 (press 0x{wparam:02X} (key_lparam 0x{lparam:02X}))");
    let behind = match waiting {
      0 => "[]".into(),
      _ => {
        let Answer::Answered(_, _, events) = &tao(&[before[1].clone(), first(&before[2])])[1].0 else { unreachable!() };
        format!("numbered 1 ({})", antt::events(&vec![events[0].clone(); waiting]))
      }
    };
    format!("record {{ handed = {}; entries = {press} ∷ {behind}; held = None }}", seen.handed)
  });
  (start, after.into_iter().map(|(answer, _)| answer).collect())
}

/// The finish of the first message instead.
fn first(finish: &Step) -> Step {
  let mut finish = finish.clone();
  if let Body::Finish { token, .. } = &mut finish.body {
    *token = 0;
  }
  finish
}

fn row(e: &Example) -> String {
  let (start, answers) = answers(e);
  let mut out = format!("-- {}\nabbrev pub {1} : Example\n{1} =\n", e.shows, e.name);
  out += &format!("    record {{\n      start = {start};\n      calls =\n");
  for (step, answer) in e.steps.iter().zip(&answers) {
    let answer = match answer {
      Answer::Refused(number) => format!("refused {number}"),
      Answer::Answered(token, slot, events) => {
        let token = token.map_or("None".into(), |t| format!("(Some {t})"));
        let result = match slot {
          &LENT => "lent",
          Slot::Value(0) => "(Value zero_result)",
          Slot::DefaultProcedure => "DefWindowProc",
          other => panic!("{other:?}"),
        };
        let events = antt::events(events);
        format!("answered {token} {result} {}", if events == "[]" { events } else { format!("({events})") })
      }
    };
    out += &format!("          ({}, {answer}) ∷\n", antt::step(step));
  }
  out + "          [];\n    }\n"
}

const HEAD: &str = "\
-- Worked examples with tao 0.37.2's own answers, written by oracle/expected (oracle/README.md, not to be edited). Tokens are counted from
-- tao's last empty queue. Calls that SCOPE 6 refuses were not given to tao: it panics there (5) or has no such limit or test (6 to 11).
-- A finish with WM_QUIT peeked was given to it as one with nothing peeked (SCOPE 3.17).
-- Assumes nothing.
use Rattle.std.specs.Prelude.{ℕ, true, false, List, [], ◌∷◌, Some, None}
use Rattle.keys.specs.Text.{named, character, unidentified, dead, dead_char}
use Rattle.keys.specs.declared.KeyLocation.TheVariants as at
use Rattle.keys.specs.declared.NativeKeyCode.TheVariants as native
use Rattle.keys.specs.declared.key_code.KeyCode.TheVariants as code
use Rattle.lookup.specs.LParam.{key_lparam}
use Rattle.lookup.specs.Maps.{Maps}
use Rattle.session.specs.Session.{press, waiting, fresh_session}
use Rattle.session.specs.Builder.{Keyboard}
use Rattle.session.specs.Calls.{numbered}
use Rattle.session.specs.Answers.{zero_result}
use Rattle.examples.specs.Examples.{Example, bring, finish, refused, answered, lent, cells, times, message, key_event}
use Rattle.session.specs.declared.ElementState.TheVariants.{Pressed, Released}
use Rattle.session.specs.declared.ProcResult.TheVariants.{DefWindowProc, Value}
";

/// crates/examples/specs/Expected.antt.
pub fn output() -> String {
  let (boards, tables) = (Boards::new(), Tables::new());
  let examples = scripts::examples(&boards, &tables);
  let mut out = HEAD.to_owned();

  out += "\n-- ---- keys by their names in tao's Key\n";
  let used: BTreeSet<u16> = boards.all().iter().flat_map(|b| antt::places(&b.layout)).chain(forced()).collect();
  for place in used {
    out += &format!("\nabbrev pub {0} : ℕ\n{0} = {place}\n", antt::key_name(place));
  }

  out += "\n-- ---- keyboards: layouts with few keys, and what is down or toggled\n";
  let mut last = "";
  for b in boards.all() {
    if b.layout_name != last {
      last = b.layout_name;
      out += &format!("\n{}", antt::layout(last, &b.layout));
    }
    out += &format!("\n{}", antt::board(b));
  }

  out += "\n-- ---- break tables, as their bytes (docs/AREAS.md)\n";
  tables.all().iter().for_each(|t| out += &format!("\n{}", antt::table(t)));

  out += "\n-- ---- the examples\n";
  examples.iter().for_each(|e| out += &format!("\n{}", row(e)));
  out
    + &format!(
      "\nabbrev pub examples : List Example\nexamples =\n    {}\n",
      antt::list(examples.iter().map(|e| e.name.into()))
    )
}

/// Keys that tao gives where no layout has them: Pause and NumLock with Control on.
fn forced() -> [u16; 2] {
  ["NumLock", "Pause"].map(|name| kbtypes::KEY_NAMES.iter().position(|n| *n == name).unwrap() as u16)
}

#[cfg(test)]
mod tests {
  use super::*;
  use kbtypes::{Key, Native};

  /// The events of an example, in order.
  fn events(name: &str) -> Vec<Event> {
    let all = scripts::examples(&Boards::new(), &Tables::new());
    let of = |answer| match answer {
      Answer::Refused(_) => vec![],
      Answer::Answered(_, _, events) => events,
    };
    answers(all.iter().find(|e| e.name == name).unwrap()).1.into_iter().flat_map(of).collect()
  }

  fn character(t: &str) -> Key {
    Key::Character(t.into())
  }

  fn texts(e: &Event) -> (Option<&str>, Option<&str>) {
    (e.text.as_deref(), e.text_with_all_modifiers.as_deref())
  }

  #[test]
  fn typed_text_and_logical_key() {
    let unidentified = Key::Unidentified(Native::Windows(2));
    for (name, key, text, all) in [
      ("surrogate_pair", character("😀"), Some("😀"), Some("😀")),
      ("dead_key_and_text", Key::Dead(Some('´')), Some("'"), Some("'")),
      ("control_at_press", character("1"), Some("x"), Some("x")),
      ("control_at_character", character("1"), Some("1"), Some("\u{11}")),
      ("bare_control", character("€"), None, None),
      ("unpaired", unidentified.clone(), None, None),
      ("unpaired_behind_letter", unidentified.clone(), None, None),
      ("dead_character_behind_text", unidentified, None, Some("a")),
      ("wide_surrogate", character("1"), Some("\0\0"), Some("\0\0")),
      ("several-pieces", character("1"), Some("\r\n\u{301}"), Some("\r\n\u{301}")),
      ("conjunct", character("1"), Some("\u{915}\u{94D}\u{937}"), Some("\u{915}\u{94D}\u{937}")),
      ("table_refused", character("1"), Some("1"), Some("1")),
    ] {
      let all_events = events(name);
      assert_eq!(
        (all_events.len(), &all_events[0].logical_key, texts(&all_events[0])),
        (1, &key, (text, all)),
        "{name}"
      );
    }
  }

  /// Which of an example's texts are the logical key.
  #[test]
  fn pieces() {
    for (name, one) in [
      ("one_piece", &[true, true, true][..]),
      ("no_ranges_of_class", &[false, false]),
      ("joined_pictographs", &[true, true]),
      ("two_joiners", &[false, false]),
      ("flags", &[true, false, false]),
      ("syllables", &[true, true, false]),
      ("around_a_letter", &[true, true, false]),
      ("table_of_the_last_finish", &[false, true]),
    ] {
      let got: Vec<bool> = events(name)
        .iter()
        .map(|e| {
          let text = e.text.as_deref().unwrap();
          assert!(e.logical_key == character(text) || e.logical_key == character("1"), "{name}");
          e.logical_key == character(text)
        })
        .collect();
      assert_eq!(got, one, "{name}");
    }
  }

  #[test]
  fn how_many_events() {
    for (name, count) in
      [("alt_gr", 2), ("fake_press_forgets", 0), ("dropped_first", 2), ("entries", 257), ("tokens", 3)]
    {
      assert_eq!(events(name).len(), count, "{name}");
    }
  }
}
