//! tao and the library on the same scanner burst in one program, and what the contract's full scans cost by themselves.
//!
//!     cargo run --release --offline --example burst [CARDS [RUNS]]
//!
//! A card has twenty digits, each a press with its character peeked, the character with the release peeked, and the
//! release with nothing peeked. A message is one call of tao's process_message, and an open and a finish of the library.
//! Processor time; of RUNS runs, whose parts take turns, the best of each part.
use kbtypes::{Body, BreakTable, Call, LayoutSpec, Peeked as Seen, Slot};
use mahjonglarch::{raw, Answers, Keyboard, Message, Peeked, Session, AREA_SIZE};
use std::{hint::black_box, sync::Arc};
use tao_oracle::{bench, run_script};

const DIGITS: usize = 20;
/// Messages, calls and events of a card.
const MESSAGES: usize = 3 * DIGITS;
const CALLS: usize = 2 * MESSAGES;
const EVENTS: u64 = 2 * DIGITS as u64;

// ---- processor time

#[repr(C)]
struct Timespec {
  seconds: i64,
  nanoseconds: i64,
}
extern "C" {
  fn clock_gettime(clock: i32, time: *mut Timespec) -> i32;
}
const CLOCK_THREAD_CPUTIME_ID: i32 = 3;

/// Nanoseconds of processor time that `work` takes.
fn time(work: impl FnOnce()) -> f64 {
  let now = || {
    let mut t = Timespec { seconds: 0, nanoseconds: 0 };
    assert_eq!(unsafe { clock_gettime(CLOCK_THREAD_CPUTIME_ID, &mut t) }, 0);
    t.seconds as f64 * 1e9 + t.nanoseconds as f64
  };
  let before = now();
  work();
  now() - before
}

// ---- the burst

/// The messages of a digit, each with what is peeked at its finish.
fn digit(d: u64) -> [(Message, Option<Message>); 3] {
  let down = (if d == 0 { 0x0B } else { 1 + d }) << 16 | 1;
  let up = down | 0xC000_0000;
  let press = Message::new(0x100, 0x30 + d, down);
  let character = Message::new(0x102, 0x30 + d, down);
  let release = Message::new(0x101, 0x30 + d, up);
  [(press, Some(character)), (character, Some(release)), (release, None)]
}

fn card() -> Vec<(Message, Option<Message>)> {
  (0..10).cycle().take(DIGITS).flat_map(digit).collect()
}

struct Layout {
  name: &'static str,
  maps: Arc<LayoutSpec>,
  block: Vec<u8>,
}

/// Unicode's break table, which both sides count by.
const TABLE: &[u8] = include_bytes!("../../tables/unicode-15.0.breaks");

fn ranges() -> Arc<BreakTable> {
  Arc::new(areas::break_table::decode(TABLE).unwrap())
}

/// The areas and what else the library is lent.
struct Library {
  session: Vec<u8>,
  answers: Vec<u8>,
  state: [u8; 256],
}

impl Library {
  /// The C functions, without looking at the events. Gives their number.
  fn calls(&mut self, block: &[u8], card: &[(Message, Option<Message>)]) -> u64 {
    let mut events = 0;
    for (m, peeked) in card {
      let (mut token, mut result) = (0, 0);
      let (session, answers, state) = (&mut self.session[..], &mut self.answers[..], &self.state[..]);
      let refused =
        raw::open(session, answers, state, block, TABLE, m.kind, m.wparam, m.lparam, &mut token, &mut result);
      assert_eq!(refused, 0);
      events += u64::from(raw::event_count(&self.answers));
      black_box(result);
      let (present, p) = peeked.map_or((0, Message::new(0, 0, 0)), |p| (1, p));
      let (session, answers, state) = (&mut self.session[..], &mut self.answers[..], &self.state[..]);
      let refused = raw::finish(session, answers, state, block, TABLE, token, present, p.kind, p.wparam, p.lparam);
      assert_eq!(refused, 0);
      events += u64::from(raw::event_count(&self.answers));
    }
    events
  }
}

/// The same through the safe crate, with every event read.
fn safe(lent: &mut (Session, Answers), keyboard: Keyboard<'_>, card: &[(Message, Option<Message>)]) -> u64 {
  let (session, answers) = lent;
  let mut events = 0;
  for (m, peeked) in card {
    let opened = session.open(answers, keyboard, *m).unwrap();
    let token = opened.token.unwrap();
    events += opened.events.map(black_box).count() as u64;
    let out = session.finish(answers, keyboard, token, Peeked::from(*peeked)).unwrap();
    events += out.map(black_box).count() as u64;
  }
  events
}

/// Do both sides hand out the same events?
fn check(layout: &Layout) {
  let state = Arc::new([0; 256]);
  let table = ranges();
  let call = |body| Call { body, state: state.clone(), layout: layout.maps.clone(), table: table.clone() };
  let seen = |m: Message| Seen { kind: m.kind, wparam: m.wparam, lparam: m.lparam };
  let mut calls = vec![];
  for (m, peeked) in card() {
    calls.push(call(Body::Open { kind: m.kind, wparam: m.wparam, lparam: m.lparam }));
    calls.push(call(Body::Finish { token: 0, peeked: peeked.map(seen) }));
  }
  let calls: Vec<&Call> = calls.iter().collect();
  let run = run_script(&calls, &vec![Slot::DefaultProcedure; calls.len()]);
  assert!(run.panicked.is_none() && run.problem.is_none());
  let tao: Vec<_> = run.answers.into_iter().flat_map(|a| a.unwrap().events).collect();
  assert_eq!(tao.len() as u64, EVENTS);

  let mut library = Library { session: vec![0; AREA_SIZE], answers: vec![0; AREA_SIZE], state: *state };
  let mut got = vec![];
  for one in card().chunks(1) {
    library.calls(&layout.block, one);
    got.extend(areas::event::decode_answers(&library.answers).unwrap());
  }
  assert!(got == tao, "the two sides differ");
}

// ---- the scans

fn or(bytes: &[u8]) -> u8 {
  bytes.iter().fold(0, |all, b| all | b)
}

/// Zeros by a loop. The compiler is not told that they are: it would call memset, which on some machines takes several
/// times as long for an area.
fn clear(bytes: &mut [u8]) {
  let zeros = black_box(0_u64).to_ne_bytes();
  bytes.chunks_exact_mut(8).for_each(|c| c.copy_from_slice(&zeros));
}

#[derive(Clone, Copy)]
struct Best(f64);

impl Best {
  fn take(&mut self, ns: f64) {
    self.0 = self.0.min(ns);
  }
}

fn measure(layout: &Layout, cards: usize, runs: usize) {
  check(layout);
  let one = card();
  let mut library = Library { session: vec![0; AREA_SIZE], answers: vec![0; AREA_SIZE], state: [0; 256] };
  let mut lent = (Session::new(), Answers::new());
  let keyboard_state = [0; 256];
  let keyboard = Keyboard { state: &keyboard_state, block: &layout.block, table: TABLE };
  let table = ranges();
  let (session, mut answers) = (vec![0; AREA_SIZE], vec![0; AREA_SIZE]);
  let [mut tao, mut calls, mut host, mut scan_session, mut scan_block, mut scan_table, mut scan_answers, mut floor] =
    [Best(f64::MAX); 8];
  let expected = EVENTS * cards as u64;
  for _ in 0..runs {
    tao.take(time(|| assert_eq!(bench::scan(&layout.maps, &table, DIGITS * cards), expected)));
    calls.take(time(|| assert_eq!((0..cards).map(|_| library.calls(&layout.block, &one)).sum::<u64>(), expected)));
    host.take(time(|| assert_eq!((0..cards).map(|_| safe(&mut lent, keyboard, &one)).sum::<u64>(), expected)));
    // As often as there are calls, so that all figures are divided alike.
    let often = |work: &mut dyn FnMut()| time(|| (0..CALLS * cards).for_each(|_| work()));
    let read = |bytes: &[u8]| {
      black_box(or(black_box(bytes)));
    };
    scan_session.take(often(&mut || read(&session)));
    scan_block.take(often(&mut || read(&layout.block)));
    scan_table.take(often(&mut || read(TABLE)));
    scan_answers.take(often(&mut || clear(black_box(&mut answers))));
    floor.take(often(&mut || {
      read(&session);
      read(&layout.block);
      read(TABLE);
      clear(black_box(&mut answers));
    }));
  }
  let message = |b: Best| b.0 / (MESSAGES * cards) as f64;
  let call = |b: Best| b.0 / (CALLS * cards) as f64;
  let row = |what: &str, ns: f64| println!("  {what:<62} {ns:>9.0} ns");
  println!("{} block, {} bytes", layout.name, layout.block.len());
  row("tao, a message", message(tao));
  row("library, a message (open and finish)", message(calls));
  row("library through the safe crate, events read, a message", message(host));
  row("library, a call", call(calls));
  row("scans of a call: session read", call(scan_session));
  row("                 block read", call(scan_block));
  row("                 break table read", call(scan_table));
  row("                 answers cleared", call(scan_answers));
  row("                 all four", call(floor));
  println!("  library / tao {:.1}, a call / its scans {:.2}", message(calls) / message(tao), call(calls) / call(floor));
  let per_second = |ns: f64| 1e9 / ns;
  println!(
    "  a second: {:.0} messages of tao, {:.0} of the library ({:.0} calls), {:.0} cards of the library",
    per_second(message(tao)),
    per_second(message(calls)),
    per_second(call(calls)),
    per_second(message(calls)) / MESSAGES as f64,
  );
}

fn main() {
  let mut arguments = std::env::args().skip(1).map(|a| a.parse().expect("a number"));
  let cards = arguments.next().unwrap_or(200);
  let runs = arguments.next().unwrap_or(9);
  let empty = LayoutSpec::empty(1);
  let us =
    std::fs::read(concat!(env!("CARGO_MANIFEST_DIR"), "/../crates/layout_keys/data/us.block")).expect("us.block");
  let layouts = [
    Layout { name: "empty", block: areas::block::encode(&empty).unwrap(), maps: Arc::new(empty) },
    Layout { name: "US", maps: Arc::new(areas::block::decode(2, &us).unwrap()), block: us },
  ];
  println!("{cards} cards of {DIGITS} digits, {} messages, the best of {runs} runs", MESSAGES * cards);
  for layout in &layouts {
    measure(layout, cards, runs);
  }
}
