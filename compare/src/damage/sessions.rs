//! Each byte of several session areas. Where it is still a session's, it is closed, and what comes out is held against what
//! the reading says is there; tao can't be brought to such a session.
use super::{call, damaged, Tried};
use crate::{
  layouts::{Layout, Layouts},
  library::{self, Lent, AREA},
  run::{Difference, Machine, Stopped},
  script::{lparam, message, state, up, Body, State, Step, Token},
  tables::{Table, Tables},
};
use areas::{
  break_table, event,
  session::{self, EntryState, Held, Info, Session},
};
use kbtypes::{BreakTable, Call, ElementState, Event, Key, LayoutSpec, Native, Slot};
use std::sync::Arc;
use tao_oracle::{lookups, run_script};

/// Session areas that hold all that one can: none held, a held press with units, eight open messages of every kind with
/// events that wait among them, as many entries as there can be.
fn sessions(m: &mut Machine) -> Result<Vec<(&'static str, Vec<u8>)>, Stopped> {
  let l = Layouts::new();
  let (a, none) = (&l.accent, state(&[]));
  let more =
    |l| Step::new(l, &state(&[]), Body::Finish { token: Token::Latest, peeked: Some(message(0x102, 0x31, 1)) });
  let held = vec![
    call(a, &none, 0x100, 0x31, lparam(0x02)),
    more(a),
    call(a, &none, 0x102, 0x20AC, 1),
    more(a),
    call(a, &none, 0x102, 0x1_F600, 1),
    more(a),
  ];
  let mut dead = vec![call(a, &none, 0x100, 0xDD, 0x4000_0000 | lparam(0x0D)), more(a)];
  for _ in 0..8 {
    dead.extend([call(a, &none, 0x102, 0x1_F600, 1), more(a)]);
  }
  let down = state(&[(0x31, 0x80), (0x14, 0x81), (0xA2, 0x80), (0xDD, 0x80)]);
  let mut eight = held.clone();
  for kind in [0x100, 0x101, 0x102, 0x104, 0x105, 0x106, 0x100, 0x101] {
    let keys = [(0x31, 0x02), (0x11, 0x1D), (0x45, 0x12), (0xDD, 0x0D), (0x60, 0x52)];
    let (vk, scan) = keys[eight.len() % keys.len()];
    eight.push(call(a, &none, kind, vk, 0x4000_0000 | lparam(scan)));
    if kind == 0x104 {
      eight.push(call(a, &down, 7, 0, 0));
    }
  }
  eight.push(call(a, &down, 8, 0, 0));
  let all: State = Arc::new([0x80; 256]);
  let one = state(&[(0x31, 0x80)]);
  let most = vec![
    call(&l.full, &none, 0x101, 0x31, up(0x02)),
    call(&l.full, &all, 8, 0, 0),
    call(&l.full, &one, 7, 0, 0),
    call(&l.full, &none, 0x100, 0x31, up(0x02)),
  ];
  let mut out = vec![];
  for (name, steps) in [("fresh", vec![]), ("held", held), ("dead", dead), ("eight", eight), ("most", most)] {
    let mut play = || {
      m.begin()?;
      steps.iter().try_for_each(|s| m.step(s))
    };
    play().map_err(|d| (steps.clone(), d))?;
    out.push((name, m.area().to_vec()));
  }
  Ok(out)
}

fn text_of(units: &[u16]) -> Option<Arc<str>> {
  String::from_utf16(units).ok().filter(|t| !t.is_empty()).map(Into::into)
}

fn event_of(info: &Info, state: ElementState) -> Event {
  Event {
    physical_key: lookups::code(info.scancode.into()),
    logical_key: info.logical_key.clone(),
    text: None,
    location: info.location,
    state,
    repeat: info.repeat,
    synthetic: false,
    text_with_all_modifiers: None,
    key_without_modifiers: info.key_without_modifiers.clone(),
  }
}

/// What a held press becomes: with its typed text at a last character without Control, without text at a dead character.
fn completed(held: &Held, table: &BreakTable, typed: bool) -> Event {
  let mut e = event_of(&held.info, ElementState::Pressed);
  e.text_with_all_modifiers = text_of(&held.units);
  if typed {
    e.text = e.text_with_all_modifiers.clone();
  }
  if held.mark {
    e.logical_key = match &e.text {
      Some(t) if break_table::pieces(table, t) > 1 => held.info.logical_key.clone(),
      Some(t) => Key::Character(t.clone()),
      None => Key::Unidentified(Native::Windows(held.info.scancode)),
    };
  }
  e
}

/// What tao makes of an open press that is finished with nothing peeked.
fn pressed(maps: &Arc<LayoutSpec>, vkey: u16, scancode: u8, extended: bool, repeat: bool) -> Event {
  let lparam = u64::from(scancode) << 16 | u64::from(extended) << 24 | u64::from(repeat) << 30;
  let keys = state(&[]);
  let bodies = [
    kbtypes::Body::Open { kind: 0x100, wparam: vkey.into(), lparam },
    kbtypes::Body::Finish { token: 0, peeked: None },
  ];
  let call = |body| Call { body, state: keys.clone(), layout: maps.clone(), table: Default::default() };
  let calls = bodies.map(call);
  let run = run_script(&[&calls[0], &calls[1]], &[Slot::DefaultProcedure; 2]);
  run.answers[1].as_ref().expect("an answer").events[0].clone()
}

/// The events that come out when all is closed, latest first, with nothing peeked and no key down, in their order, and
/// the press that is still held.
fn closed(s: &Session, maps: &Arc<LayoutSpec>, table: &BreakTable) -> (Vec<Event>, Option<Held>) {
  let mut held = s.held.clone();
  let mut events = vec![];
  for entry in s.entries.iter().rev() {
    let event = match &entry.state {
      EntryState::Complete(e) => Some(e.clone()),
      EntryState::Release(info) => Some(event_of(info, ElementState::Released)),
      EntryState::Character => held.take().map(|h| completed(&h, table, true)),
      EntryState::Press { vkey, scancode, extended, repeat } => {
        held = None;
        Some(pressed(maps, *vkey, *scancode, *extended, *repeat))
      }
    };
    events.extend(event);
  }
  events.reverse();
  (events, held)
}

struct Host {
  session: Vec<u8>,
  answers: Vec<u8>,
  keys: State,
  layout: Arc<Layout>,
  table: Arc<Table>,
}

impl Host {
  fn lent(&mut self) -> Lent<'_> {
    let (session, answers) = (&mut self.session, &mut self.answers);
    Lent { session, answers, state: &self.keys[..], block: &self.layout.block, table: &self.table.bytes }
  }
  fn open(&mut self, kind: u32, wparam: u64) -> u32 {
    library::open(self.lent(), kind, wparam, 1).refused
  }
  fn finish(&mut self, token: u32) -> u32 {
    library::finish(self.lent(), token, None).refused
  }
  /// Closes all; what came out is held against what the reading says.
  fn close(&mut self, s: &Session) -> Result<(), String> {
    let (events, held) = closed(s, &self.layout.maps, &self.table.ranges);
    let mut handed_out = vec![];
    for entry in s.entries.iter().rev().filter(|e| e.is_open()) {
      if self.finish(entry.token.into()) != 0 {
        return Err("a closing is refused".into());
      }
      handed_out.extend(event::decode_answers(&self.answers).ok_or("no answer area")?);
    }
    if handed_out != events {
      return Err(format!("closed, it hands out {handed_out:?}, and the reading has {events:?}"));
    }
    if let Some(held) = held {
      if self.open(0x103, 0xB4) != 0 {
        return Err("a dead character is refused although a press is held".into());
      }
      let got = event::decode_answers(&self.answers).ok_or("no answer area")?;
      let want = [completed(&held, &self.table.ranges, false)];
      if got != want {
        return Err(format!("the held press becomes {got:?}, and the reading has {want:?}"));
      }
    }
    match session::decode(&self.session) {
      Some(s) if s == Session::fresh() => Ok(()),
      other => Err(format!("not fresh behind it: {other:?}")),
    }
  }
}

pub fn run(m: &mut Machine) -> Result<Tried, Stopped> {
  let (mut tried, mut in_order) = (0, 0);
  let (l, tables) = (Layouts::new(), Tables::new());
  let all = sessions(m)?;
  for (name, area) in all {
    let layout = l.accent.clone();
    let table = tables.small.clone();
    let mut h = Host { session: area.clone(), answers: vec![0; AREA], keys: state(&[]), layout, table };
    let mut now = area.clone();
    for at in 0..AREA {
      for byte in damaged(area[at]) {
        tried += 1;
        now[at] = byte;
        h.session[at] = byte;
        let read = session::decode(&now);
        h.answers[AREA - 1] = 0xEE;
        // an ignored message: nothing but question 4 is left to refuse it, and nothing changes
        let got = h.open(0, 0);
        let fine = |h: &Host| h.session == now && h.answers[AREA - 1] == if got == 0 { 0 } else { 0xEE };
        let what = match &read {
          Some(_) if got != 0 => Some(format!("refusal {got}, and the reading has a session")),
          None if got != 4 => Some(format!("refusal {got}, and the reading has no session")),
          _ if !fine(&h) => Some("an area changed".into()),
          Some(s) if session::encode(s) != now => Some("the reading's session has another area".into()),
          Some(s) => {
            in_order += 1;
            let closed = h.close(s).err();
            h.session.copy_from_slice(&now);
            closed
          }
          None => None,
        };
        if let Some(what) = what {
          let what = format!("session area '{name}', byte {at} is {byte:02X}: {what}");
          return Err((vec![], Difference { at: 0, what }));
        }
      }
      now[at] = area[at];
      h.session[at] = area[at];
    }
  }
  Ok((tried, in_order))
}
