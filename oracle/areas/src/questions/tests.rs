use super::*;
use crate::{
  dice::Dice,
  session::{encode, Entry, EntryState},
};

const F4: u64 = 0x73;
const OPENING: [u32; 4] = [0x100, 0x101, 0x104, 0x105];

/// So many open characters, then `complete` events; the next token is the one behind `handed`.
fn session(open: usize, complete: usize, handed: u16, units: Option<usize>) -> Session {
  let mut d = Dice(7);
  let states = (0..open + complete).map(|i| match i < open {
    true => EntryState::Character,
    false => EntryState::Complete(d.event()),
  });
  let entries = states.zip(0..).map(|(state, token)| Entry { token, state }).collect();
  let mut d = Dice(8);
  let held = units.map(|n| session::Held { units: vec![0x61; n], ..d.held() });
  Session { handed, held, entries }
}

fn ask(s: &Session, kind: u32, wparam: u64) -> Option<u32> {
  let mut layout = LayoutSpec::empty(1);
  layout.scan_of_vk.fill(0x1E);
  open_refused_in(s, &layout, &[0x80; 256], kind, wparam, 0)
}

#[test]
fn dead_characters_need_a_held_press() {
  for kind in [0x103, 0x107] {
    assert_eq!(ask(&session(0, 0, 0, None), kind, 0x61), Some(5));
    assert_eq!(ask(&session(0, 0, 0, Some(16)), kind, 0x61), None);
    // it opens nothing, but takes an entry and a token
    assert_eq!(ask(&session(8, 0, 8, Some(0)), kind, 0x61), None);
    assert_eq!(ask(&session(8, 247, 4095, Some(0)), kind, 0x61), None);
    assert_eq!(ask(&session(8, 248, 4096, Some(0)), kind, 0x61), Some(7));
    assert_eq!(ask(&session(8, 247, 4096, Some(0)), kind, 0x61), Some(8));
    assert_eq!(ask(&session(8, 248, 4096, None), kind, 0x61), Some(5));
  }
}

#[test]
fn what_opens_is_within_the_limits() {
  for kind in OPENING {
    assert_eq!(ask(&session(7, 0, 7, None), kind, 0x31), None);
    assert_eq!(ask(&session(8, 248, 4096, None), kind, 0x31), Some(6));
    assert_eq!(ask(&session(7, 249, 4096, None), kind, 0x31), Some(7));
    assert_eq!(ask(&session(7, 248, 4096, None), kind, 0x31), Some(8));
    assert_eq!(ask(&session(7, 248, 4095, Some(16)), kind, 0x31), None);
  }
  for kind in [0x102, 0x106] {
    assert_eq!(ask(&session(8, 248, 4096, Some(16)), kind, 0x31), Some(6));
    assert_eq!(ask(&session(7, 249, 4096, Some(16)), kind, 0x31), Some(7));
    assert_eq!(ask(&session(7, 248, 4096, Some(16)), kind, 0x31), Some(8));
    assert_eq!(ask(&session(7, 248, 4095, Some(16)), kind, 0x31), Some(9));
    assert_eq!(ask(&session(7, 248, 4095, Some(15)), kind, 0x31), None);
  }
}

#[test]
fn units_stay_within_16() {
  for (wparam, units) in [
    (0x0, 1),
    (0xD7FF, 1),
    (0xD800, 1),
    (0xDFFF, 1),
    (0xFFFF, 1),
    (0x1_0000, 2),
    (0x10_FFFF, 2),
    (0x11_0000, 2),
    (0xFFFF_FFFF, 2),
    (0x1_0000_0061, 1),
    (0x1_0000_D800, 2),
    (0x1_0001_F600, 2),
  ] {
    let s = |n| session(1, 0, 1, Some(n));
    assert_eq!(ask(&s(16 - units), 0x102, wparam), None, "{wparam:X}");
    assert_eq!(ask(&s(17 - units), 0x106, wparam), Some(9), "{wparam:X}");
  }
}

#[test]
fn ignored_messages_pass() {
  let full = session(8, 248, 4096, None);
  let ignored = [(0x104, F4), (0x102, 0x61), (0x106, 0x61), (0x0, 0), (0x108, 0), (0x1_0100, 0), (0x1_0007, 0)];
  for (kind, wparam) in ignored {
    assert_eq!(ask(&full, kind, wparam), None);
    assert_eq!(sort(&full, kind, wparam), Sort::Ignored);
  }
  assert_eq!(ask(&full, 0x104, 0x1_0073), Some(6));
  assert_eq!(ask(&full, 0x100, F4), Some(6));
}

/// 253 events with every key down.
#[test]
fn focus() {
  for kind in [0x7, 0x8] {
    assert_eq!(ask(&session(0, 0, 0, None), kind, 0), None);
    assert_eq!(ask(&session(1, 2, 4096 - 253, Some(16)), kind, 0), None);
    assert_eq!(ask(&session(1, 2, 4096 - 252, Some(16)), kind, 0), Some(8));
    assert_eq!(ask(&session(1, 3, 4096, None), kind, 0), Some(7));
    assert_eq!(ask(&session(8, 0, 8, None), kind, 0), Some(7));
    let none = LayoutSpec::empty(1);
    assert_eq!(open_refused_in(&session(8, 248, 4096, None), &none, &[0xFF; 256], kind, 0, 0), None);
  }
  let mut layout = LayoutSpec::empty(1);
  let mut state = [0x7F; 256];
  let mut count = 0;
  for vk in [0x00, 0x10, 0x11, 0x12, 0x14, 0x31, 0xA0, 0xA5, 0xFF] {
    layout.scan_of_vk[vk] = 0x1E;
    assert_eq!(focus_events(&layout, &state), count);
    state[vk] = 0x80;
    count += usize::from(!matches!(vk, 0x10..=0x12));
    assert_eq!(focus_events(&layout, &state), count);
  }
  layout.scan_of_vk[0xFF] = 0;
  assert_eq!(focus_events(&layout, &state), count - 1);
}

#[test]
fn a_finish_names_the_latest() {
  let mut s = session(3, 4, 7, None);
  for (token, answer) in [(0, Some(10)), (1, Some(10)), (2, None), (3, Some(10)), (0x1_0002, Some(10))] {
    assert_eq!(finish_refused_in(&s, token), answer);
  }
  s.entries[6].state = EntryState::Character;
  assert_eq!((finish_refused_in(&s, 6), finish_refused_in(&s, 2)), (None, Some(10)));
  assert_eq!(finish_refused_in(&Session::fresh(), 0), Some(10));
}

/// Each question is put behind those before it; 11 stands between 3 and 4.
#[test]
fn the_first_no_counts() {
  let good = encode(&session(1, 0, 1, None));
  let bad = vec![1; AREA];
  let (short, long) = (vec![0; AREA - 1], vec![0; AREA + 1]);
  let block = block::encode(&LayoutSpec::empty(1)).unwrap();
  let table = break_table::write(&[(0x0D, 0x0D, 1)]);
  let state = [0; 256];
  type Row<'a> = (&'a [u8], &'a [u8], &'a [u8], &'a [u8], &'a [u8], Option<u32>);
  let rows: [Row; 13] = [
    (&short, &bad, &state, &block, &table, Some(1)),
    (&good, &long, &[], &[], &[], Some(1)),
    (&good, &short, &state, &block, &table, Some(1)),
    (&bad, &bad, &state[1..], &[], &[], Some(2)),
    (&bad, &bad, &[0; 257], &[], &table, Some(2)),
    (&bad, &bad, &state, &block[1..], &[], Some(3)),
    (&good, &good, &state, &bad, &table, Some(3)),
    (&bad, &bad, &state, &block, &[], Some(11)),
    (&bad, &bad, &state, &block, &table[1..], Some(11)),
    (&good, &bad, &state, &block, &bad, Some(11)),
    (&bad, &bad, &state, &block, &table, Some(4)),
    (&good, &bad, &state, &block, &table, None),
    (&good, &bad, &state, &block, &[0; 8], None),
  ];
  for (session, answers, state, block, table, number) in rows {
    assert_eq!(finish_refused(session, answers, state, block, table, 7), number.or(Some(10)));
    assert_eq!(finish_refused(session, answers, state, block, table, 0), number);
    assert_eq!(open_refused(session, answers, state, block, table, 0x103, 0, 0), number.or(Some(5)));
    assert_eq!(open_refused(session, answers, state, block, table, 0x100, 0, 0), number);
    // an ignored message
    assert_eq!(open_refused(session, answers, state, block, table, 0x12, 0, 0), number);
  }
}
