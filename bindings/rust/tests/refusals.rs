//! The questions: each refusal has its number, and no refused call changes a byte of either area. The numbers and the limits are those of
//! docs/SCOPE.md, 6 and 8.2.
mod common;
use common::*;
use mahjonglarch::*;

/// Areas of a caller's own, with a press of 1 open (token 0) and events of an earlier call in the answers.
struct Areas {
  session: Vec<u8>,
  answers: Vec<u8>,
  state: Vec<u8>,
  block: Vec<u8>,
  table: Vec<u8>,
}

impl Areas {
  fn new() -> Areas {
    let mut host = Host::new();
    host.type_digit('1', None);
    let (_, answers) = host.areas();
    host.open(press('1')).unwrap();
    let (session, _) = host.areas();
    Areas { session, answers, state: vec![0; KEY_STATE_SIZE], block: US.to_vec(), table: UNICODE.to_vec() }
  }

  fn open(&mut self) -> (u32, u32, u32) {
    self.bring(release('2'))
  }

  fn bring(&mut self, m: Message) -> (u32, u32, u32) {
    let (mut token, mut result) = (7, 7);
    let a = &mut *self;
    let number = raw::open(
      &mut a.session,
      &mut a.answers,
      &a.state,
      &a.block,
      &a.table,
      m.kind,
      m.wparam,
      m.lparam,
      &mut token,
      &mut result,
    );
    (number, token, result)
  }

  fn finish(&mut self, token: u32) -> u32 {
    let a = &mut *self;
    raw::finish(&mut a.session, &mut a.answers, &a.state, &a.block, &a.table, token, 0, 0, 0, 0)
  }

  /// Both calls are refused with the number, and change nothing.
  #[track_caller]
  fn refuses(mut self, number: u32) {
    let before = (self.session.clone(), self.answers.clone());
    assert_eq!(self.open(), (number, raw::NONE, 0));
    assert_eq!(self.bring(Message::new(0x200, 0, 0)), (number, raw::NONE, 0)); // an unhandled kind
    assert_eq!(self.finish(0), number);
    assert!(before == (self.session, self.answers));
  }
}

fn with(change: impl FnOnce(&mut Areas)) -> Areas {
  let mut areas = Areas::new();
  change(&mut areas);
  areas
}

#[test]
fn these_areas_are_answered() {
  let mut areas = Areas::new();
  assert_eq!(areas.open(), (0, 1, 2));
  assert_eq!(areas.finish(1), 0);
  assert_eq!(areas.finish(0), 0);
  assert_eq!(raw::event_count(&areas.answers), 2);
  assert!(areas.session.iter().all(|byte| *byte == 0));
}

#[test]
fn area_size_1() {
  with(|a| a.session.truncate(AREA_SIZE - 1)).refuses(1);
  with(|a| a.session.push(0)).refuses(1);
  with(|a| a.session.clear()).refuses(1);
  with(|a| a.answers.truncate(AREA_SIZE - 1)).refuses(1);
  with(|a| a.answers.push(0)).refuses(1);
  with(|a| a.answers.clear()).refuses(1);
}

#[test]
fn key_state_size_2() {
  with(|a| a.state.truncate(KEY_STATE_SIZE - 1)).refuses(2);
  with(|a| a.state.push(0)).refuses(2);
  with(|a| a.state.clear()).refuses(2);
}

#[test]
fn block_3() {
  with(|a| a.block.truncate(US.len() - 1)).refuses(3);
  with(|a| a.block.push(0)).refuses(3);
  with(|a| a.block.clear()).refuses(3);
  with(|a| a.block.resize(BLOCK_MOST + 1, 0)).refuses(3);
  with(|a| a.block[0] = 2).refuses(3); // the AltGr flag is 0 or 1
}

#[test]
fn session_4() {
  with(|a| a.session[AREA_SIZE - 1] = 1).refuses(4); // behind the entries
  with(|a| a.session[0] = 0).refuses(4); // fewer tokens handed out than there are
  with(|a| a.session.fill(0xFF)).refuses(4);
}

/// A break table, as docs/AREAS.md lays it out.
fn table(ranges: &[(u32, u32, u8)]) -> Vec<u8> {
  let mut bytes = vec![0; 4];
  bytes.extend((ranges.len() as u32).to_le_bytes());
  bytes.extend(ranges.iter().flat_map(|range| range.0.to_le_bytes()));
  bytes.extend(ranges.iter().flat_map(|range| range.1.to_le_bytes()));
  bytes.extend(ranges.iter().map(|range| range.2));
  bytes
}

/// The press is finished and its area is the fresh one again.
#[track_caller]
fn passes_11(table: Vec<u8>) {
  let mut areas = with(|a| a.table = table);
  assert_eq!(areas.finish(0), 0);
  assert!(areas.session.iter().all(|byte| *byte == 0));
}

#[test]
fn table_11_by_its_layout() {
  with(|a| a.table.truncate(UNICODE.len() - 1)).refuses(11);
  with(|a| a.table.push(0)).refuses(11);
  with(|a| a.table.clear()).refuses(11); // no bytes are no table
  with(|a| a.table = vec![0; 7]).refuses(11);
  with(|a| a.table.resize(TABLE_MOST + 1, 0)).refuses(11);
  for form in [[1, 0, 0, 0], [150, 0, 0, 0], [0, 0, 0, 1]] {
    with(|a| a.table[..4].copy_from_slice(&form)).refuses(11);
  }
  with(|a| a.table[4] ^= 1).refuses(11); // one range more or less than there is room for
  with(|a| a.table = vec![0, 0, 0, 0, 0, 0, 0, 0x80]).refuses(11); // 2^31 ranges
  passes_11(NO_RANGES.to_vec());
}

#[test]
fn table_11_by_its_ranges() {
  let refused: [&[(u32, u32, u8)]; 14] = [
    &[(0x41, 0x45, 4), (0x45, 0x50, 4)],                     // they overlap
    &[(0x41, 0x41, 4), (0x41, 0x41, 4)],                     // the same twice
    &[(0x50, 0x51, 4), (0x41, 0x42, 4)],                     // out of order
    &[(0, 0, 4), (0, 1, 4)],                                 // 0 twice
    &[(0x42, 0x41, 4)],                                      // it ends before it begins
    &[(0xD800, 0xDFFF, 3)],                                  // no scalar values
    &[(0xD7FF, 0xD800, 3)],                                  // the last is none
    &[(0xDFFF, 0xE000, 3)],                                  // the first is none
    &[(0x10FFFF, 0x110000, 3)],                              // the last is none
    &[(0x110000, 0x110000, 3)],                              // neither is one
    &[(0x41, 0x41, 14)],                                     // an unknown class
    &[(0x41, 0x41, 16 + 15)],                                // another
    &[(0x41, 0x41, 32)],                                     // a mark of 2
    &[(0x41, 0x41, 4), (0x42, 0x42, 4), (0x43, 0x43, 0x80)], // a mark of 8, in the last
  ];
  for ranges in refused {
    with(|a| a.table = table(ranges)).refuses(11);
  }
  passes_11(table(&[(0, 0, 13), (1, 0xD7FF, 16), (0xE000, 0x10FFFF, 0)])); // a pictograph of class Other, and Other itself
  passes_11(table(&[(0xD7FF, 0xE000, 16 + 13)])); // both ends are scalar values
}

/// 65,528 bytes are the most that a table of nine bytes a range has below the limit.
#[test]
fn table_11_by_its_size() {
  let ranges: Vec<_> = (0..7_281).map(|i| (2 * i, 2 * i, 4)).collect();
  assert_eq!((table(&ranges[1..]).len(), table(&ranges).len()), (65_528, 65_537));
  passes_11(table(&ranges[1..]));
  with(|a| a.table = table(&ranges)).refuses(11);
}

/// A finish that is refused with 11 is answered with the same token once the table is in order.
#[test]
fn table_11_gives_the_token_back() {
  let mut host = Host::new();
  host.hold('1');
  host.open(character('1')).unwrap();
  let before = host.areas();
  host.table = &UNICODE[1..];
  assert_eq!(host.finish(None), Err(Refusal::Table));
  assert_eq!(host.open(press('2')), Err(Refusal::Table));
  assert!(before == host.areas());
  host.table = NO_RANGES; // a text of one scalar value does not ask it
  assert_eq!(host.finish(None), Ok(1));
  assert_eq!(host.card(), "1");
  assert!(host.session.is_fresh());
  assert_eq!(Refusal::Table.to_string(), "refused 11: the break table is not in order");
}

/// The number is that of the first question that fails: 1, 2, 3, 11, 4, and then the others.
#[test]
fn the_first_that_fails() {
  with(|a| {
    a.session.clear();
    a.state.clear();
    a.block.clear();
  })
  .refuses(1);
  with(|a| {
    a.state.clear();
    a.block.clear();
    a.table.clear();
    a.session[0] = 0;
  })
  .refuses(2);
  with(|a| {
    a.block.clear();
    a.table.clear();
    a.session[0] = 0;
  })
  .refuses(3);
  with(|a| {
    a.table.clear();
    a.session[0] = 0;
  })
  .refuses(11);
  let mut areas = with(|a| a.table.clear());
  assert_eq!(areas.finish(7), 11); // before 10
  assert_eq!(areas.bring(Message::new(WM_DEADCHAR, 0x60, 0x0029_0001)).0, 11); // before 5
}

#[test]
fn nothing_held_5() {
  let mut host = Host::new();
  host.type_digit('1', None);
  host.open(release('1')).unwrap();
  let before = host.areas();
  for kind in [WM_DEADCHAR, WM_SYSDEADCHAR] {
    assert_eq!(host.open(Message::new(kind, 0x60, 0x0029_0001)), Err(Refusal::NothingHeld));
  }
  assert!(before == host.areas());
}

/// Eight opens pass, the ninth is 6, also for a character; a focus change opens nothing and passes.
#[test]
fn too_many_open_6() {
  let mut host = Host::new();
  for token in 0..8 {
    assert_eq!(host.open(release('1')), Ok((Some(token), ResultChange::Zero)));
  }
  let before = host.areas();
  for message in [press('1'), release('1')] {
    assert_eq!(host.open(message), Err(Refusal::TooManyOpen));
  }
  assert!(before == host.areas());
  assert_eq!(host.open(Message::new(WM_SETFOCUS, 0, 0)), Ok((None, ResultChange::Kept)));
}

/// 256 entries pass, 257 is 7; finishing the first hands them all out.
#[test]
fn queue_full_7() {
  let mut host = Host::new();
  host.open(release('1')).unwrap();
  for _ in 1..EVENTS_MOST {
    host.open(release('2')).unwrap();
    assert_eq!(host.finish(None), Ok(0));
  }
  let before = host.areas();
  assert_eq!(host.open(release('3')), Err(Refusal::QueueFull));
  assert!(before == host.areas());
  assert_eq!(host.finish(None), Ok(EVENTS_MOST));
  assert!(host.session.is_fresh());
}

/// The 4,096th token passes, the 4,097th is 8; tokens start again when the queue empties.
#[test]
fn tokens_used_8() {
  let mut host = Host::new();
  host.open(release('1')).unwrap();
  for token in 1..TOKENS_MOST as u32 {
    assert_eq!(host.open(press('2')), Ok((Some(token), ResultChange::Zero)));
    assert_eq!(host.finish(Some(character('2'))), Ok(0)); // held: its entry is dropped
  }
  let before = host.areas();
  assert_eq!(host.open(press('2')), Err(Refusal::TokensUsed));
  assert!(before == host.areas());
  assert_eq!(host.finish(None), Ok(1));
  assert_eq!(host.open(release('2')), Ok((Some(0), ResultChange::Zero)));
}

/// Sixteen units pass, seventeen is 9.
#[test]
fn too_many_units_9() {
  let mut host = Host::new();
  host.hold('1');
  for _ in 0..UNITS_MOST {
    host.open(character('1')).unwrap();
    assert_eq!(host.finish(Some(character('1'))), Ok(0)); // more is coming
  }
  let before = host.areas();
  assert_eq!(host.open(character('1')), Err(Refusal::TooManyUnits));
  assert!(before == host.areas());
}

/// Any token but that of the latest open message.
#[test]
fn not_latest_10() {
  let mut areas = Areas::new();
  assert_eq!(areas.open(), (0, 1, 2));
  let before = (areas.session.clone(), areas.answers.clone());
  for token in [0, 2, 4_096, 0x1_0001, raw::NONE] {
    assert_eq!(areas.finish(token), 10);
  }
  assert!(before == (areas.session.clone(), areas.answers.clone()));
  assert_eq!((areas.finish(1), areas.finish(1), areas.finish(0), areas.finish(0)), (0, 10, 0, 10));
}

/// A token whose finish is refused comes back.
#[test]
fn not_latest_gives_the_token_back() {
  let (mut session, mut answers) = (Session::new(), Answers::new());
  let keyboard = Keyboard { state: &[0; KEY_STATE_SIZE], block: US, table: UNICODE };
  let first = session.open(&mut answers, keyboard, press('1')).unwrap().token.unwrap();
  let second = session.open(&mut answers, keyboard, release('2')).unwrap().token.unwrap();
  let not = session.finish(&mut answers, keyboard, first, Peeked::Nothing).unwrap_err();
  assert_eq!((not.refusal, not.token.number()), (Refusal::NotLatest, 0));
  assert_eq!(not.to_string(), "token 0: refused 10: not the token of the latest open message");
  assert_eq!(session.finish(&mut answers, keyboard, second, Peeked::Nothing).unwrap().len(), 0);
  let both = session.finish(&mut answers, keyboard, not.token, Peeked::Nothing).unwrap();
  assert_eq!(both.len(), 2);
  assert!(session.is_fresh());
}

#[test]
fn numbers_of_refusals() {
  for number in 1..=11 {
    assert_eq!(Refusal::from_number(number).unwrap().number(), number);
  }
  for number in [0, 12, u32::MAX] {
    assert_eq!(Refusal::from_number(number), None);
  }
}
