//! The readers of events, and `fresh`, with lengths and numbers out of range.
use crate::{
  layouts::Layouts,
  library::{self, AREA, FIELDS, NONE, TEXT_MOST},
  script::state,
  tables::small,
};

/// The readers' answers to lengths and numbers out of range.
pub fn check() -> Result<(), String> {
  let l = Layouts::new();
  let mut session = vec![0; AREA];
  let mut answers = vec![0; AREA];
  let keys = state(&[(0x31, 0x80), (0x14, 0x80)]);
  let (block, table) = (&l.accent.block, &small().bytes);
  let lent = library::Lent { session: &mut session, answers: &mut answers, state: &keys[..], block, table };
  let said = library::open(lent, 0x7, 0, 0);
  let expect = |what: &str, got: u32, want: u32| {
    if got == want {
      Ok(())
    } else {
      Err(format!("{what}: {got:X}, not {want:X}"))
    }
  };
  expect("focus", said.refused, 0)?;
  expect("event_count", library::event_count(&answers), 2)?;
  for length in [0, 1, AREA - 1] {
    expect("event_count of a short area", library::event_count(&answers[..length]), NONE)?;
    let mut fields = [7; FIELDS];
    expect("event of a short area", library::event(&answers[..length], 0, &mut fields), 1)?;
    let mut text = [7; TEXT_MOST];
    expect("text of a short area", library::event_text(&answers[..length], 0, 1, &mut text), NONE)?;
    if fields != [7; FIELDS] || text != [7; TEXT_MOST] {
      return Err("a reader wrote although the area is short".into());
    }
  }
  let long = [&answers[..], &[0]].concat();
  expect("event_count of a long area", library::event_count(&long), NONE)?;
  expect("event of a long area", library::event(&long, 0, &mut [7; FIELDS]), 1)?;
  expect("text of a long area", library::event_text(&long, 0, 1, &mut [7; TEXT_MOST]), NONE)?;
  for (i, fine) in [(0, true), (1, true), (2, false), (255, false), (256, false), (65_536, false), (u32::MAX, false)] {
    let mut fields = [7; FIELDS];
    expect("event", library::event(&answers, i, &mut fields), u32::from(!fine))?;
    if !fine && fields != [7; FIELDS] {
      return Err(format!("event {i} is not there and wrote"));
    }
    for which in [0, 1, 2, 3, 4, 5, 255, 256, u32::MAX] {
      let mut text = [7; TEXT_MOST];
      let got = library::event_text(&answers, i, which, &mut text);
      let none = !fine || which > 3;
      if (got == NONE) != none || none && text != [7; TEXT_MOST] {
        return Err(format!("text {which} of event {i}: {got:X}"));
      }
    }
  }
  for length in [0, 1, 16, 18, 34] {
    let mut fields = vec![7; length];
    expect("event with another number of fields", library::event(&answers, 0, &mut fields), 1)?;
    if fields.iter().any(|f| *f != 7) {
      return Err(format!("{length} fields were written"));
    }
  }
  for length in [0, 1, 47] {
    let mut text = vec![7; length];
    expect("a short text", library::event_text(&answers, 1, 1, &mut text), NONE)?;
    if text.iter().any(|b| *b != 7) {
      return Err(format!("a text of room {length} was written"));
    }
  }
  expect("a text with more room", library::event_text(&answers, 1, 1, &mut [7; 49]), 1)?;
  for length in [0, 1, 65_535, 65_537] {
    let mut area = vec![7; length];
    expect("fresh with another length", library::fresh(&mut area), 1)?;
    if area.iter().any(|b| *b != 7) {
      return Err(format!("fresh wrote to {length} bytes"));
    }
  }
  Ok(())
}
