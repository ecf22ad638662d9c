//! The calls of crates/replay with tao's own answers: some thousands, on several layouts and break tables. oracle/README.md ('The calls of
//! replay') lays the file out. Held to tao: the token, the message result, tokens handed out, whether a press is held, the number of entries, and
//! every byte of the answer area; and each event as this crate reads it, to its bytes (docs/AREAS.md). The numbers of refused calls are those of
//! docs/SCOPE.md, 6.
mod common;
use common::event_bytes;
use mahjonglarch::*;

struct Reader(&'static [u8]);

impl Reader {
  fn take(&mut self, n: usize) -> &'static [u8] {
    let (taken, rest) = self.0.split_at(n);
    self.0 = rest;
    taken
  }

  fn byte(&mut self) -> u8 {
    self.take(1)[0]
  }

  /// Bytes with their length before them.
  fn counted(&mut self) -> &'static [u8] {
    let length = number(self.take(4));
    self.take(length as usize)
  }

  fn name(&mut self) -> &'static str {
    let length = self.byte();
    std::str::from_utf8(self.take(length.into())).unwrap()
  }

  /// A packed field: pairs of a number of zeros and the byte behind them, and 255 for zeros to its end.
  fn packed(&mut self, size: usize) -> Vec<u8> {
    let mut field = vec![];
    while field.len() < size {
      let zeros = self.byte();
      if zeros == 255 {
        field.resize(size, 0);
        break;
      }
      field.resize(field.len() + usize::from(zeros), 0);
      field.push(self.byte());
    }
    assert_eq!(field.len(), size);
    field
  }
}

fn number(bytes: &[u8]) -> u64 {
  bytes.iter().rev().fold(0, |n, byte| n << 8 | u64::from(*byte))
}

/// A call and what tao answered to it, by the offsets of the record.
struct Record(Vec<u8>);

impl Record {
  fn u32_at(&self, at: usize) -> u32 {
    number(&self.0[at..at + 4]) as u32
  }

  fn u64_at(&self, at: usize) -> u64 {
    number(&self.0[at..at + 8])
  }

  /// The number of the refusal, or 0; the token that was opened.
  fn answer(&self) -> (u32, u32) {
    match self.0[29] {
      0 => (self.u32_at(30), raw::NONE),
      1 => (0, raw::NONE),
      _ => (0, self.u32_at(30)),
    }
  }

  /// The message result before an open, by what the open before left.
  fn result_before(&self, left: [u8; 9]) -> [u8; 9] {
    match self.0[20] {
      2 => left,
      _ => self.0[20..29].try_into().unwrap(),
    }
  }
}

struct Replay {
  session: Vec<u8>,
  answers: Vec<u8>,
  state: Vec<u8>,
  block: &'static [u8],
  table: &'static [u8],
  /// The message result as the latest open left it.
  result: [u8; 9],
}

/// The message result behind an open that says what becomes of it.
fn result_after(before: [u8; 9], change: u32) -> [u8; 9] {
  match change {
    0 => before,
    1 => [0; 9],
    _ => [1, 0, 0, 0, 0, 0, 0, 0, 0],
  }
}

impl Replay {
  fn open(&mut self, r: &Record) -> (u32, u32) {
    let (mut token, mut change) = (7, 7);
    let number = raw::open(
      &mut self.session,
      &mut self.answers,
      &self.state,
      self.block,
      self.table,
      r.u32_at(0),
      r.u64_at(4),
      r.u64_at(12),
      &mut token,
      &mut change,
    );
    self.result = result_after(r.result_before(self.result), change);
    assert_eq!(self.result, r.0[34..43]);
    (number, token)
  }

  fn finish(&mut self, r: &Record) -> (u32, u32) {
    let number = raw::finish(
      &mut self.session,
      &mut self.answers,
      &self.state,
      self.block,
      self.table,
      r.u32_at(20),
      r.0[24].into(),
      r.u32_at(0),
      r.u64_at(4),
      r.u64_at(12),
    );
    (number, raw::NONE)
  }

  /// Makes a call and holds its answer against tao's: how many events it handed out.
  fn call(&mut self, file: &mut Reader, opens: bool) -> u32 {
    let r = Record(file.packed(48));
    let before = (self.session.clone(), self.answers.clone());
    let answer = if opens { self.open(&r) } else { self.finish(&r) };
    assert_eq!(answer, r.answer());
    if answer.0 != 0 {
      assert!(before.0 == self.session && before.1 == self.answers);
      return 0;
    }
    assert_eq!((&self.session[..3], &self.session[107..109]), (&r.0[43..46], &r.0[46..48]));
    assert!(self.answers == file.packed(AREA_SIZE));
    self.read_events()
  }

  fn read_events(&self) -> u32 {
    let count = raw::event_count(&self.answers);
    for i in 0..count {
      let at = 2 + 196 * i as usize;
      assert_eq!(event_bytes(&Event::read(&self.answers, i).unwrap()), self.answers[at..at + 196]);
    }
    count
  }
}

/// What crates/replay prints of its scripts: their names, calls and events.
fn tao_scripts() -> Vec<&'static str> {
  let lines = include_str!("../../../crates/replay/stdout").lines();
  lines.take_while(|line| !line.contains("scripts")).collect()
}

#[test]
fn the_calls_of_replay() {
  let mut file = Reader(include_bytes!("../../../crates/replay/data/calls"));
  let blocks: Vec<_> = (0..file.byte()).map(|_| file.counted()).collect();
  let tables: Vec<_> = (0..file.byte()).map(|_| file.counted()).collect();
  let (session, answers) = (vec![0; AREA_SIZE], vec![0; AREA_SIZE]);
  let mut replay = Replay { session, answers, state: vec![], block: &[], table: &[], result: [0; 9] };
  let mut scripts = vec![];
  loop {
    match file.byte() {
      0 => break,
      1 => {
        assert_eq!(raw::fresh(&mut replay.session), 0);
        scripts.push((file.name(), 0, 0));
      }
      2 => {
        replay.block = blocks[usize::from(file.byte())];
        replay.table = tables[usize::from(file.byte())];
        replay.state = file.packed(KEY_STATE_SIZE);
      }
      kind => {
        let (_, calls, events) = scripts.last_mut().expect("a script has begun");
        *calls += 1;
        *events += replay.call(&mut file, kind == 3);
      }
    }
  }
  assert!(file.0.is_empty());
  let scripts: Vec<_> =
    scripts.iter().map(|(name, calls, events)| format!("{name}: {calls} calls, {events} events")).collect();
  assert_eq!(scripts, tao_scripts());
}
