//! Runs a script on both sides and compares them.
//!
//! The library goes first, call by call; each refusal is foretold by the plain reading of the questions, and the session
//! area behind each answered call is read by the independent reading. At the end what is open is closed, tao is run once
//! on the answered calls, and the two are compared call by call.
use crate::{
  count::{Case, Counts},
  fields::c_event,
  layouts::{forget_passing, passing_id, Layout},
  library::{self, Lent, Said, AREA, FIELDS, NONE, TEXT_MOST},
  script::{Body, Odd, Step, Token},
  tables::Table,
};
use areas::{
  event,
  questions::{finish_refused, finish_refused_in, open_refused, open_refused_in},
  session::{self, Session},
};
use kbtypes::{Call, Event, Slot, Snapshot};
use std::{ops::Range, sync::Arc};
use tao_oracle::run_script;

/// Bytes around an area that no call may touch; an area that is too long reaches into those behind.
const GUARD: usize = 64;
const GUARD_BYTE: u8 = 0xA5;
/// `result` before each call of tao.
const LENT: Slot = Slot::Value(77);

/// Where both sides part.
#[derive(Clone, Debug)]
pub struct Difference {
  /// The call, counted from 0; one behind the script's last is a closing.
  pub at: usize,
  pub what: String,
}

type Outcome<T> = Result<T, Difference>;

/// The calls of a script that shows a difference.
pub type Stopped = (Vec<Step>, Difference);

struct Guarded(Vec<u8>);

impl Guarded {
  fn new() -> Self {
    let mut all = vec![GUARD_BYTE; GUARD + AREA + GUARD];
    all[GUARD..GUARD + AREA].fill(0);
    Guarded(all)
  }
  fn area(&self) -> &[u8] {
    &self.0[GUARD..GUARD + AREA]
  }
  fn area_mut(&mut self) -> &mut [u8] {
    &mut self.0[GUARD..GUARD + AREA]
  }
  /// The area with another length: less of it, or some of the guard.
  fn lent(&mut self, length: usize) -> &mut [u8] {
    &mut self.0[GUARD..GUARD + length]
  }
  fn guards_stand(&self) -> bool {
    let guards = self.0[..GUARD].iter().chain(&self.0[GUARD + AREA..]);
    guards.fold(true, |stand, b| stand & (*b == GUARD_BYTE))
  }
}

/// What a call with odd inputs is lent: lengths of the areas, key state, block, break table.
struct Inputs {
  session: usize,
  answers: usize,
  state: Vec<u8>,
  block: Vec<u8>,
  table: Vec<u8>,
  other_session: bool,
}

/// An answered call, as the library answered it.
struct Record {
  step: usize,
  opened: Option<u32>,
  /// What becomes of `result`, of an open.
  result: Option<u32>,
  /// The bytes of the events.
  bytes: Range<usize>,
  /// The events as the C interface reads them.
  fields: Range<usize>,
  texts: usize,
  seen: Snapshot,
}

pub struct Machine {
  session: Guarded,
  answers: Guarded,
  session_before: Vec<u8>,
  answers_before: Vec<u8>,
  zeros: Vec<u8>,
  /// The session as the independent reading has it.
  now: Session,
  /// Whether the script has an answered finish with WM_QUIT peeked.
  quit: bool,
  steps: usize,
  calls: Vec<Call>,
  records: Vec<Record>,
  bytes: Vec<u8>,
  fields: Vec<[u32; FIELDS]>,
  texts: Vec<u8>,
  /// 0 or the refusal's number, of each call.
  pub said: Vec<u32>,
  pub counts: Counts,
}

pub fn seen(s: &Session) -> Snapshot {
  Snapshot {
    handed: s.handed.into(),
    entries: s.entries.iter().map(|e| (e.token.into(), !e.is_open())).collect(),
    held: s.held.as_ref().map(|h| (h.vkey, h.info.scancode, h.units.clone())),
  }
}

impl Machine {
  pub fn new() -> Self {
    Machine {
      session: Guarded::new(),
      answers: Guarded::new(),
      session_before: vec![0; AREA],
      answers_before: vec![0; AREA],
      zeros: vec![0; AREA],
      now: Session::fresh(),
      quit: false,
      steps: 0,
      calls: vec![],
      records: vec![],
      bytes: vec![],
      fields: vec![],
      texts: vec![],
      said: vec![],
      counts: Counts::default(),
    }
  }

  /// The session behind the calls so far.
  pub fn now(&self) -> &Session {
    &self.now
  }

  /// Bytes of the session area behind the calls so far.
  pub fn area(&self) -> &[u8] {
    self.session.area()
  }

  fn differs<T>(&self, what: impl Into<String>) -> Outcome<T> {
    Err(Difference { at: self.steps, what: what.into() })
  }

  /// Begins a script with a fresh session.
  pub fn begin(&mut self) -> Outcome<()> {
    self.steps = 0;
    self.calls.clear();
    self.records.clear();
    self.bytes.clear();
    self.fields.clear();
    self.texts.clear();
    self.said.clear();
    forget_passing();
    self.now = Session::fresh();
    self.quit = false;
    self.counts.add(Case::Scripts);
    let first = self.session.area_mut();
    first[0] = 1;
    first[AREA - 1] = 1;
    if library::fresh(first) != 0 || *first != self.zeros[..] {
      return self.differs("a fresh session's area is not zeros");
    }
    Ok(())
  }

  /// The token that a finish brings; 0 of an open, which brings none.
  fn token_of(&self, step: &Step) -> u32 {
    let latest = self.now.latest().map_or(0, u32::from);
    match step.body {
      Body::Open(_) => 0,
      Body::Finish { token: Token::Latest, .. } => latest,
      Body::Finish { token: Token::Off(n), .. } => latest.wrapping_add(n),
      Body::Finish { token: Token::Number(n), .. } => n,
    }
  }

  /// One more call on the library.
  pub fn step(&mut self, step: &Step) -> Outcome<()> {
    self.counts.add(Case::Calls);
    if let Some(byte) = step.fill {
      self.answers.area_mut().fill(byte);
    }
    if step.odd.is_empty() {
      self.plain(step)?;
    } else {
      self.odd(step)?;
    }
    self.steps += 1;
    Ok(())
  }

  /// A call whose inputs pass questions 1 to 4 and 11.
  fn plain(&mut self, step: &Step) -> Outcome<()> {
    let expected = match step.body {
      Body::Open(m) => open_refused_in(&self.now, &step.layout.maps, &step.state, m.kind, m.wparam, m.lparam),
      Body::Finish { .. } => finish_refused_in(&self.now, self.token_of(step)),
    };
    if expected.is_some() {
      self.session_before.copy_from_slice(self.session.area());
      self.answers_before.copy_from_slice(self.answers.area());
    }
    let said = self.call(step, &step.state[..], &step.layout.block, &step.table.bytes, (AREA, AREA));
    self.refusal(expected, said)?;
    if said.refused != 0 {
      return self.kept();
    }
    self.answered(step, &step.layout, &step.table, said)
  }

  /// The library's answer; session and answer area are lent with these lengths.
  fn call(&mut self, step: &Step, state: &[u8], block: &[u8], table: &[u8], lengths: (usize, usize)) -> Said {
    let token = self.token_of(step);
    let (session, answers) = (self.session.lent(lengths.0), self.answers.lent(lengths.1));
    let lent = Lent { session, answers, state, block, table };
    match step.body {
      Body::Open(m) => library::open(lent, m.kind, m.wparam, m.lparam),
      Body::Finish { peeked, .. } => library::finish(lent, token, peeked.map(|m| (m.kind, m.wparam, m.lparam))),
    }
  }

  /// Whether the call is refused as the questions say; a refused open opens nothing and leaves `result`.
  fn refusal(&mut self, expected: Option<u32>, said: Said) -> Outcome<()> {
    let (got, expected) = (said.refused, expected.unwrap_or(0));
    self.said.push(got);
    if got != expected {
      let name = |n: u32| if n == 0 { "answered".into() } else { format!("refusal {n}") };
      return self.differs(format!("the library says {}, the questions say {}", name(got), name(expected)));
    }
    if got != 0 {
      self.counts.refused(got);
      if said.token.is_some_and(|t| t != NONE) || said.result.is_some_and(|r| r != 0) {
        return self.differs(format!("a refused open wrote {said:X?}"));
      }
    }
    Ok(())
  }

  /// Behind a refused call both areas have every byte that they had.
  fn kept(&mut self) -> Outcome<()> {
    if self.session.area() != self.session_before {
      return self.differs("the refused call changed the session area");
    }
    if self.answers.area() != self.answers_before {
      return self.differs("the refused call changed the answer area");
    }
    Ok(())
  }

  fn guards(&self) -> Outcome<()> {
    if self.session.guards_stand() && self.answers.guards_stand() {
      Ok(())
    } else {
      self.differs("a byte outside the areas was written")
    }
  }

  /// The inputs of a call with what is odd about them; a changed byte of the session area is changed in its place.
  fn inputs(&mut self, step: &Step) -> Inputs {
    let (state, block, table) = (step.state.to_vec(), step.layout.block.clone(), step.table.bytes.clone());
    let mut to = Inputs { session: AREA, answers: AREA, state, block, table, other_session: false };
    let change = |bytes: &mut Vec<u8>, at: usize, by: u8| {
      let length = bytes.len().max(1);
      bytes.iter_mut().skip(at % length).take(1).for_each(|b| *b ^= by);
    };
    for odd in &step.odd {
      match *odd {
        Odd::SessionLength(n) => to.session = n,
        Odd::AnswersLength(n) => to.answers = n,
        Odd::StateLength(n) => to.state.resize(n, 0),
        Odd::Block(ref bytes) => to.block = bytes.0.to_vec(),
        Odd::BlockLength(n) => to.block.resize(n, 0),
        Odd::BlockByte(at, by) => change(&mut to.block, at, by),
        Odd::Table(ref bytes) => to.table = bytes.0.to_vec(),
        Odd::TableLength(n) => to.table.resize(n, 0),
        Odd::TableByte(at, by) => change(&mut to.table, at, by),
        Odd::SessionByte(at, by) => {
          self.session.area_mut()[at % AREA] ^= by;
          to.other_session = true;
        }
      }
    }
    to
  }

  /// The questions put to the very bytes that the library is lent.
  fn questions(&self, step: &Step, to: &Inputs) -> Option<u32> {
    let session = &self.session.0[GUARD..GUARD + to.session];
    let answers = &self.answers.0[GUARD..GUARD + to.answers];
    match step.body {
      Body::Open(m) => open_refused(session, answers, &to.state, &to.block, &to.table, m.kind, m.wparam, m.lparam),
      Body::Finish { .. } => finish_refused(session, answers, &to.state, &to.block, &to.table, self.token_of(step)),
    }
  }

  /// A call with odd inputs.
  fn odd(&mut self, step: &Step) -> Outcome<()> {
    let before = self.session.area().to_vec();
    let to = self.inputs(step);
    self.session_before.copy_from_slice(self.session.area());
    self.answers_before.copy_from_slice(self.answers.area());
    let expected = self.questions(step, &to);
    let said = self.call(step, &to.state, &to.block, &to.table, (to.session, to.answers));
    self.guards()?;
    self.refusal(expected, said)?;
    match (said.refused, to.other_session) {
      (0, false) => self.passing(step, to, said),
      (0, true) => self.aside(&before),
      _ => {
        self.kept()?;
        self.session.area_mut().copy_from_slice(&before);
        Ok(())
      }
    }
  }

  /// Behind an answered call on another session. tao can't be brought there, but what the call left must be areas all the
  /// same. The script goes on where it was.
  fn aside(&mut self, before: &[u8]) -> Outcome<()> {
    self.counts.add(Case::Aside);
    if session::decode(self.session.area()).is_none() {
      return self.differs("behind the call the session area is no session's");
    }
    self.events_behind()?;
    self.session.area_mut().copy_from_slice(before);
    Ok(())
  }

  /// Behind an answered call: tao is given the maps and the ranges that another block and another table stand for.
  fn passing(&mut self, step: &Step, to: Inputs, said: Said) -> Outcome<()> {
    let mut layout = Some(step.layout.clone());
    if to.block != step.layout.block {
      self.counts.add(Case::Passing);
      layout = Layout::read(&format!("{} changed", step.layout.name), passing_id(), to.block);
    }
    let mut table = Some(step.table.clone());
    if to.table != step.table.bytes {
      self.counts.add(Case::PassingTable);
      table = Table::read(&format!("{} changed", step.table.name), to.table);
    }
    match (layout, table) {
      (Some(layout), Some(table)) => self.answered(step, &layout, &table, said),
      (None, _) => self.differs("the block is no block"),
      (_, None) => self.differs("the table is no table"),
    }
  }

  /// The number of events in the answer area, and that there are zeros behind them.
  fn events_behind(&mut self) -> Outcome<usize> {
    let area = self.answers.area();
    let n = usize::from(u16::from_le_bytes([area[0], area[1]]));
    if n > event::MOST {
      return self.differs(format!("{n} events"));
    }
    let end = 2 + n * event::EVENT;
    if area[end..] != self.zeros[end..] {
      return self.differs("no zeros behind the events");
    }
    let count = library::event_count(area);
    if count as usize != n {
      return self.differs(format!("event_count says {count}, the area {n}"));
    }
    Ok(n)
  }

  /// Reads the events as a C host does.
  fn read_events(&mut self, n: usize) -> Outcome<()> {
    let area = self.answers.area();
    for i in 0..n as u32 {
      let mut fields = [0xDEAD_BEEF; FIELDS];
      if library::event(area, i, &mut fields) != 0 {
        return self.differs(format!("event {i} is not handed out"));
      }
      for which in 0..4 {
        let mut text = [0xEE; TEXT_MOST];
        let length = library::event_text(area, i, which, &mut text) as usize;
        if length != fields[13 + which as usize] as usize || length > TEXT_MOST {
          return self.differs(format!("text {which} of event {i} has length {length}"));
        }
        if text[length..].iter().any(|b| *b != 0xEE) {
          return self.differs(format!("text {which} of event {i}: bytes behind it were written"));
        }
        self.texts.extend_from_slice(&text[..length]);
      }
      self.fields.push(fields);
    }
    Ok(())
  }

  /// Behind an answered call: the areas are read, and the call is kept for tao.
  fn answered(&mut self, step: &Step, layout: &Arc<Layout>, table: &Arc<Table>, said: Said) -> Outcome<()> {
    let n = self.events_behind()?;
    let (bytes, fields, texts) = (self.bytes.len(), self.fields.len(), self.texts.len());
    self.bytes.extend_from_slice(&self.answers.0[GUARD + 2..GUARD + 2 + n * event::EVENT]);
    self.read_events(n)?;
    let Some(behind) = session::decode(self.session.area()) else {
      return self.differs("behind the call the session area is no session's");
    };
    let opened = said.token.filter(|t| *t != NONE);
    let body = match step.body {
      Body::Open(m) => kbtypes::Body::Open { kind: m.kind, wparam: m.wparam, lparam: m.lparam },
      Body::Finish { peeked, .. } => kbtypes::Body::Finish { token: 0, peeked },
    };
    let (layout, table) = (layout.maps.clone(), table.ranges.clone());
    let call = Call { body: body.for_tao(), state: step.state.clone(), layout, table };
    self.quit |= body.sees_quit();
    match step.body {
      Body::Open(m) => self.counts.opened(&m, &self.now, &behind, opened.is_some(), n),
      Body::Finish { .. } => {
        self.counts.finished(&call, body.sees_quit(), &self.now, &behind, n);
        self.counts.pieces(&call, self.calls.last(), &self.now, &behind);
      }
    }
    self.counts.add(Case::Answered);
    self.calls.push(call);
    let (bytes, fields) = (bytes..self.bytes.len(), fields..self.fields.len());
    let seen = seen(&behind);
    self.now = behind;
    self.records.push(Record { step: self.steps, opened, result: said.result, bytes, fields, texts, seen });
    Ok(())
  }

  /// Closes what is open, latest first, with nothing peeked. `like` is a call whose keyboard serves.
  fn close(&mut self, like: &Step) -> Outcome<()> {
    let body = Body::Finish { token: Token::Latest, peeked: None };
    while self.now.latest().is_some() {
      let open = self.now.open();
      self.step(&Step::new(&like.layout, &like.state, body).with(&like.table))?;
      if self.now.open() + 1 != open {
        return self.differs("a closing left the number of open messages");
      }
    }
    Ok(())
  }

  /// Ends a script: closings, the area at the end, and the comparison with tao.
  pub fn end(&mut self, like: &Step) -> Outcome<()> {
    self.close(like)?;
    self.guards()?;
    if self.quit {
      self.counts.add(Case::Quit);
    }
    if !self.now.entries.is_empty() || self.now.handed != 0 {
      return self.differs("something waits although nothing is open");
    }
    if self.now.held.is_some() {
      self.counts.add(Case::EndHeld);
    } else {
      self.counts.add(Case::Fresh);
      if self.session.area() != self.zeros {
        return self.differs("the area is not fresh at the end");
      }
    }
    self.tao()
  }

  /// tao on the answered calls.
  fn tao(&mut self) -> Outcome<()> {
    let calls: Vec<&Call> = self.calls.iter().collect();
    let run = run_script(&calls, &vec![LENT; calls.len()]);
    for (i, r) in self.records.iter().enumerate() {
      let Some(Some(a)) = run.answers.get(i) else {
        let what = format!("tao gave no answer: {:?} {:?}", run.panicked, run.problem);
        return Err(Difference { at: r.step, what });
      };
      let opened = a.opened.then(|| a.snapshot.handed - 1);
      let result = match a.slot {
        LENT => Ok(0),
        Slot::DefaultProcedure => Ok(1),
        Slot::Value(0) => Ok(2),
        other => Err(other),
      };
      self.same(r, opened, result, &a.events, &a.snapshot).map_err(|what| Difference { at: r.step, what })?;
      self.counts.events(&a.events);
    }
    match (run.panicked, run.problem) {
      (None, None) => Ok(()),
      other => self.differs(format!("tao: {other:?}")),
    }
  }

  /// Compares one answered call with tao's answer.
  fn same(
    &self,
    r: &Record,
    opened: Option<u32>,
    result: Result<u32, Slot>,
    events: &[Event],
    seen: &Snapshot,
  ) -> Result<(), String> {
    if r.opened != opened {
      return Err(format!("token: library {:?}, tao {opened:?}", r.opened));
    }
    if let Some(number) = r.result {
      if Ok(number) != result {
        return Err(format!("`result`: library {number}, tao {result:?}"));
      }
    }
    if r.fields.len() != events.len() {
      return Err(format!("events: library {}, tao {}: {events:?}", r.fields.len(), events.len()));
    }
    let mut texts = &self.texts[r.texts..];
    let each = self.bytes[r.bytes.clone()].chunks_exact(event::EVENT).zip(&self.fields[r.fields.clone()]);
    for (i, ((bytes, fields), e)) in each.zip(events).enumerate() {
      let (want, want_texts) = c_event(e);
      if *fields != want {
        return Err(format!("event {i}: fields {fields:X?}, tao {want:X?}: {e:?}"));
      }
      for (which, want) in want_texts.iter().enumerate() {
        let (text, rest) = texts.split_at(want.len());
        texts = rest;
        if text != want.as_bytes() {
          return Err(format!("event {i}: text {which} is {text:X?}, tao {want:?}"));
        }
      }
      if *bytes != event::encode(e) {
        return Err(format!("event {i}: its bytes are {:?}, tao {e:?}", event::decode(bytes)));
      }
    }
    if r.seen != *seen {
      return Err(format!("session: library {:X?}, tao {seen:X?}", r.seen));
    }
    Ok(())
  }

  /// A whole script.
  pub fn run(&mut self, steps: &[Step]) -> Outcome<()> {
    self.begin()?;
    for step in steps {
      self.step(step)?;
    }
    match steps.last() {
      Some(last) => self.end(last),
      None => Ok(()),
    }
  }
}
