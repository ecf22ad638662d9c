//! How often each case was reached.
use crate::script::Message;
use areas::{
  break_table,
  session::{EntryState, Session},
};
use kbtypes::{Body, BreakTable, Call, ElementState, Event, Key, Location, Native, KEY_NAMES};
use std::fmt;

macro_rules! cases {
  ($($case:ident $text:literal)*) => {
    // Some are named by their distance from the first of their kind only.
    #[allow(dead_code)]
    #[derive(Clone, Copy)]
    pub enum Case { $($case),* }
    const CASES: &[&str] = &[$($text),*];
  };
}

cases! {
  Scripts "scripts"
  Quit "scripts with WM_QUIT peeked, which tao is given as nothing peeked"
  Calls "calls, closings included"
  Answered "answered"
  Refused "refused"
  Aside "answered on a damaged copy of the session area, so not put to tao"
  Passing "answered with a damaged block that is one"
  PassingTable "answered with a damaged break table that is one"
  Open7 "open, kind 7"
  Open8 "open, kind 8"
  Open100 "open, kind 100"
  Open101 "open, kind 101"
  Open102 "open, kind 102"
  Open103 "open, kind 103"
  Open104 "open, kind 104"
  Open105 "open, kind 105"
  Open106 "open, kind 106"
  Open107 "open, kind 107"
  OpenOther "open, another kind"
  Refused1 "refusal 1"
  Refused2 "refusal 2"
  Refused3 "refusal 3"
  Refused4 "refusal 4"
  Refused5 "refusal 5"
  Refused6 "refusal 6"
  Refused7 "refusal 7"
  Refused8 "refusal 8"
  Refused9 "refusal 9"
  Refused10 "refusal 10"
  Refused11 "refusal 11"
  F4 "ignored: 104 with F4"
  NoneHeld "ignored: a character with no held press"
  Unhandled "ignored: an unhandled kind"
  FocusEmpty "focus on an empty queue"
  FocusWaits "focus on a queue with entries"
  FocusNone "focus without events"
  DeadEmpty "103, 107 on an empty queue"
  DeadWaits "103, 107 on a queue with entries"
  CodeZero "a press or release with scan code 00"
  Depth1 "a message opened as the 1st"
  Depth2 "as the 2nd"
  Depth3 "as the 3rd"
  Depth4 "as the 4th"
  Depth5 "as the 5th"
  Depth6 "as the 6th"
  Depth7 "as the 7th"
  Depth8 "as the 8th"
  PressAlone "finish of a press, nothing peeked"
  PressKey "finish of a press, a key message peeked"
  PressFake "finish of a press, fake"
  PressHeld "finish of a press, another kind peeked: held"
  PressQuit "finish of a press, WM_QUIT peeked"
  PressForgets "finish of a press that forgets a held one"
  ReleaseDone "finish of a release, completed"
  ReleaseFake "finish of a release, fake"
  ReleaseQuit "finish of a release, WM_QUIT peeked"
  CharacterMore "finish of a character, more coming"
  CharacterNone "finish of a character, no press held by then"
  CharacterDone "finish of a character, completed"
  CharacterQuit "finish of a character, WM_QUIT peeked"
  ControlCounts "finish of a character, completed with Control"
  ControlAlt "finish of a character, completed with Control and Alt on an AltGr layout"
  Waits "a completed event waits behind an open message"
  DropHandsOut "an entry without event resolved first, and events behind it handed out"
  Events0 "calls that hand out no event"
  Events1 "1 event"
  Events2 "2 to 8 events"
  Events9 "9 to 64 events"
  Events65 "65 to 255 events"
  Events256 "256 events"
  Events "events"
  Pressed "events: pressed"
  Released "events: released"
  Repeat "events: repeat"
  Synthetic "events: synthetic"
  Standard "events: location standard"
  Left "events: location left"
  Right "events: location right"
  Numpad "events: location numpad"
  Character "logical key a character"
  Unidentified "logical key unidentified"
  OtherNative "logical key unidentified, another native code than Windows"
  DeadSome "logical key dead with a character"
  DeadNone "logical key dead without one"
  Named "logical key a named one"
  Forced "logical key NumLock or Pause and the same without modifiers"
  NoText "no text"
  Text "text"
  TextDiffers "text differs from the text with all modifiers"
  OnlyAll "no text, but a text with all modifiers"
  Pair "text with a scalar value above FFFF"
  Zero "text with 00"
  OnePiece "text of several scalar values that is the logical key"
  Several "text of several pieces, the layout's character stands"
  OtherTable "text of one piece by the last finish's table and of several by that of the call before, or the other way round"
  Gb3 "between the scalar values of a typed text: GB3"
  Gb4 "GB4"
  Gb5 "GB5"
  Gb6 "GB6"
  Gb7 "GB7"
  Gb8 "GB8"
  Gb9 "GB9"
  Gb9a "GB9a"
  Gb9b "GB9b"
  Gb11 "GB11"
  Gb12 "GB12"
  Gb13 "GB13"
  Gb999 "GB999"
  Longest "text of 48 bytes"
  NoPair "typed units without text"
  CodeIdentified "physical key identified"
  CodeNot "physical key unidentified"
  Fresh "end: the area is fresh"
  EndHeld "end: a press is held"
  MostEntries "256 entries in the session"
  MostTokens "4,096 tokens handed out"
  MostUnits "16 units held"
}

#[derive(Clone)]
pub struct Counts([u64; CASES.len()]);

impl Default for Counts {
  fn default() -> Self {
    Counts([0; CASES.len()])
  }
}

fn after(case: Case, n: usize) -> usize {
  case as usize + n
}

impl Counts {
  pub fn add(&mut self, case: Case) {
    self.0[case as usize] += 1;
  }

  #[cfg(test)]
  pub fn of(&self, case: Case) -> u64 {
    self.0[case as usize]
  }

  fn when(&mut self, now: bool, case: Case) {
    self.0[case as usize] += u64::from(now);
  }

  pub fn refused(&mut self, number: u32) {
    self.add(Case::Refused);
    self.0[after(Case::Refused1, number as usize - 1)] += 1;
  }

  /// An answered open, with the session before it and behind it.
  pub fn opened(&mut self, m: &Message, before: &Session, behind: &Session, opened: bool, events: usize) {
    let kind = match m.kind {
      7 | 8 => after(Case::Open7, m.kind as usize - 7),
      0x100..=0x107 => after(Case::Open100, m.kind as usize - 0x100),
      _ => Case::OpenOther as usize,
    };
    self.0[kind] += 1;
    match m.kind {
      7 | 8 => {
        let empty = before.entries.is_empty();
        self.add(if empty { Case::FocusEmpty } else { Case::FocusWaits });
        self.when(events == 0 && behind.entries.len() == before.entries.len(), Case::FocusNone);
      }
      0x103 | 0x107 => self.add(if before.entries.is_empty() { Case::DeadEmpty } else { Case::DeadWaits }),
      0x104 if !opened => self.add(Case::F4),
      0x102 | 0x106 if !opened => self.add(Case::NoneHeld),
      _ if !opened => self.add(Case::Unhandled),
      _ => (),
    }
    let key = matches!(m.kind, 0x100 | 0x101 | 0x104 | 0x105);
    self.when(opened && key && m.lparam >> 16 & 0xFF == 0, Case::CodeZero);
    if opened {
      self.0[after(Case::Depth1, before.open())] += 1;
    }
    self.session(behind);
  }

  fn session(&mut self, s: &Session) {
    self.when(s.entries.len() == 256, Case::MostEntries);
    self.when(s.handed == 4096, Case::MostTokens);
    self.when(s.held.as_ref().is_some_and(|h| h.units.len() == 16), Case::MostUnits);
  }

  /// An answered finish as tao is given it, whether WM_QUIT was peeked, and the session before it and behind it.
  pub fn finished(&mut self, call: &Call, quit: bool, before: &Session, behind: &Session, events: usize) {
    let Some(at) = before.entries.iter().rposition(|e| e.is_open()) else { return };
    let entry = &before.entries[at];
    let peeked = match call.body {
      Body::Finish { peeked, .. } => peeked,
      Body::Open { .. } => None,
    };
    // completed: it is among the events, or its entry waits
    let waits = behind.entries.iter().any(|e| e.token == entry.token);
    let behind_it = before.entries.len() - 1 - at;
    let done = waits || at == 0 && events == behind_it + 1;
    self.when(waits, Case::Waits);
    self.when(at == 0 && !done && events > 0, Case::DropHandsOut);
    let key = peeked.is_some_and(|m| matches!(m.kind, 0x100 | 0x101 | 0x104 | 0x105));
    match entry.state {
      EntryState::Press { .. } => {
        self.when(before.held.is_some(), Case::PressForgets);
        self.when(quit, Case::PressQuit);
        self.add(match (done, peeked.is_some(), key) {
          (true, false, _) => Case::PressAlone,
          (true, true, _) => Case::PressKey,
          (false, _, true) => Case::PressFake,
          (false, _, false) => Case::PressHeld,
        });
      }
      EntryState::Release(_) => {
        self.when(quit, Case::ReleaseQuit);
        self.add(if done { Case::ReleaseDone } else { Case::ReleaseFake });
      }
      EntryState::Character => {
        self.when(quit, Case::CharacterQuit);
        let more = peeked.is_some_and(|m| matches!(m.kind, 0x102 | 0x106));
        self.add(match (done, more) {
          (true, _) => Case::CharacterDone,
          (false, true) => Case::CharacterMore,
          (false, false) => Case::CharacterNone,
        });
        let typed = before.held.as_ref().is_some_and(|h| !h.units.is_empty() && String::from_utf16(&h.units).is_err());
        self.when(done && typed, Case::NoPair);
        let down = |keys: [usize; 3]| keys.iter().any(|vk| call.state[*vk] & 0x80 != 0);
        let (control, alt) = (down([0x11, 0xA2, 0xA3]), down([0x12, 0xA4, 0xA5]));
        let passes = alt && call.layout.alt_gr;
        self.when(done && control && !passes, Case::ControlCounts);
        self.when(done && control && passes, Case::ControlAlt);
      }
      EntryState::Complete(_) => (),
    }
    self.session(behind);
  }

  /// The rules by which the pieces of a typed text are counted, where this finish completes one. `last` is the answered
  /// call before it.
  pub fn pieces(&mut self, call: &Call, last: Option<&Call>, before: &Session, behind: &Session) {
    let latest = before.entries.iter().rfind(|e| e.is_open());
    let character = latest.is_some_and(|e| matches!(e.state, EntryState::Character));
    let control = [0x11, 0xA2, 0xA3].iter().any(|vk| call.state[*vk] & 0x80 != 0);
    let Some(held) = before.held.as_ref().filter(|h| h.mark && character && !control) else { return };
    let Ok(text) = String::from_utf16(&held.units) else { return };
    if behind.held.is_some() || text.chars().nth(1).is_none() {
      return;
    }
    for rule in break_table::rules(&call.table, &text) {
      self.0[after(Case::Gb3, rule as usize)] += 1;
    }
    let several = |t: &BreakTable| break_table::pieces(t, &text) > 1;
    self.when(last.is_some_and(|l| several(&l.table) != several(&call.table)), Case::OtherTable);
  }

  /// The events of one call.
  pub fn events(&mut self, events: &[Event]) {
    self.add(match events.len() {
      0 => Case::Events0,
      1 => Case::Events1,
      2..=8 => Case::Events2,
      9..=64 => Case::Events9,
      65..=255 => Case::Events65,
      _ => Case::Events256,
    });
    events.iter().for_each(|e| self.event(e));
  }

  fn event(&mut self, e: &Event) {
    self.add(Case::Events);
    self.add(if e.state == ElementState::Pressed { Case::Pressed } else { Case::Released });
    self.when(e.repeat, Case::Repeat);
    self.when(e.synthetic, Case::Synthetic);
    self.add(match e.location {
      Location::Standard => Case::Standard,
      Location::Left => Case::Left,
      Location::Right => Case::Right,
      Location::Numpad => Case::Numpad,
    });
    self.add(match &e.logical_key {
      Key::Character(_) => Case::Character,
      Key::Unidentified(_) => Case::Unidentified,
      Key::Dead(Some(_)) => Case::DeadSome,
      Key::Dead(None) => Case::DeadNone,
      Key::Named(_) => Case::Named,
    });
    if let Key::Unidentified(native) = e.logical_key {
      self.when(!matches!(native, Native::Windows(_)), Case::OtherNative);
    }
    if let (Key::Named(a), Key::Named(b)) = (&e.logical_key, &e.key_without_modifiers) {
      let forced = matches!(KEY_NAMES[usize::from(*a)], "NumLock" | "Pause");
      self.when(forced && a == b && !e.synthetic, Case::Forced);
    }
    let code = matches!(e.physical_key, kbtypes::Code::Named(_));
    self.add(if code { Case::CodeIdentified } else { Case::CodeNot });
    self.add(if e.text.is_some() { Case::Text } else { Case::NoText });
    match &e.text {
      None => self.when(e.text_with_all_modifiers.is_some(), Case::OnlyAll),
      Some(t) => {
        self.when(e.text != e.text_with_all_modifiers, Case::TextDiffers);
        self.when(t.chars().any(|c| c > '\u{FFFF}'), Case::Pair);
        self.when(t.contains('\0'), Case::Zero);
        self.when(t.len() == 48, Case::Longest);
        let typed = e.text == e.text_with_all_modifiers && !e.synthetic && t.chars().nth(1).is_some();
        if let (true, Key::Character(key)) = (typed, &e.logical_key) {
          self.add(if key == t { Case::OnePiece } else { Case::Several });
        }
      }
    }
  }
}

impl fmt::Display for Counts {
  fn fmt(&self, f: &mut fmt::Formatter<'_>) -> fmt::Result {
    writeln!(f, "| case | count |\n|---|---|")?;
    CASES.iter().zip(&self.0).try_for_each(|(name, n)| writeln!(f, "| {name} | {} |", grouped(*n)))
  }
}

/// With a comma before every three digits.
pub fn grouped(n: u64) -> String {
  let digits = n.to_string();
  let first = digits.len() % 3;
  let mut out = digits[..first].to_string();
  for (i, d) in digits[first..].chars().enumerate() {
    if i % 3 == 0 && !out.is_empty() {
      out.push(',');
    }
    out.push(d);
  }
  out
}

#[cfg(test)]
mod tests {
  #[test]
  fn grouped() {
    for (n, s) in [(0, "0"), (12, "12"), (123, "123"), (1234, "1,234"), (1_234_567, "1,234,567")] {
      assert_eq!(super::grouped(n), s);
    }
  }
}
