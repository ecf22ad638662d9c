use super::*;
use crate::dice::Dice;
use kbtypes::{Code, ElementState, Native};

fn info() -> Info {
  Info {
    scancode: 0xE038,
    repeat: true,
    location: Location::Right,
    logical_key: Key::Character("é".into()),
    key_without_modifiers: Key::Dead(Some('´')),
  }
}

fn event() -> Event {
  Event {
    physical_key: Code::Named(20),
    logical_key: Key::Unidentified(Native::Windows(0x1E)),
    text: None,
    location: Location::Left,
    state: ElementState::Released,
    repeat: false,
    synthetic: true,
    text_with_all_modifiers: None,
    key_without_modifiers: Key::Named(3),
  }
}

/// A press, an event, a release and a character, with a held press.
fn small() -> Session {
  let press = EntryState::Press { vkey: 0x1031, scancode: 0x02, extended: true, repeat: false };
  let states = [press, EntryState::Complete(event()), EntryState::Release(info()), EntryState::Character];
  let entries = states.into_iter().zip([1, 3, 4, 0x201]).map(|(state, token)| Entry { token, state }).collect();
  let held = Held { info: info(), vkey: 0x1032, mark: true, units: vec![0xD83D, 0x61] };
  Session { handed: 0x203, held: Some(held), entries }
}

/// Where the entries of `small` begin.
const AT: [usize; 4] = [109, 308, 507, 706];

/// The offsets are those of docs/AREAS.md.
#[test]
fn every_field_has_its_place() {
  let mut key = [0; 68];
  key[..4].copy_from_slice(&[0x38, 0xE0, 1, 2]);
  key[4 + 7..4 + 10].copy_from_slice(&[2, 0xC3, 0xA9]);
  key[36..40].copy_from_slice(&[2, 0, 1, 0xB4]);
  let mut x = vec![0; 65_536];
  x[..3].copy_from_slice(&[3, 2, 1]);
  x[3..71].copy_from_slice(&key);
  x[71..79].copy_from_slice(&[0x32, 0x10, 1, 2, 0x3D, 0xD8, 0x61, 0]);
  x[107] = 4;
  x[AT[0]..AT[0] + 9].copy_from_slice(&[1, 0, 0, 0, 0x31, 0x10, 2, 1, 0]);
  x[AT[1]..AT[1] + 3].copy_from_slice(&[3, 0, 1]);
  let e = AT[1] + 3;
  x[e + 5..e + 10].copy_from_slice(&[20, 1, 0, 1, 0x1E]);
  x[e + 111..e + 115].copy_from_slice(&[1, 1, 0, 1]);
  x[e + 164] = 3;
  x[AT[2]..AT[2] + 5].copy_from_slice(&[4, 0, 0, 1, 0]);
  x[AT[2] + 5..AT[2] + 73].copy_from_slice(&key);
  x[AT[3]..AT[3] + 5].copy_from_slice(&[1, 2, 0, 1, 1]);
  assert!(encode(&small()) == x);
  assert_eq!(decode(&x), Some(small()));
}

#[test]
fn fresh_is_zeros() {
  assert!(encode(&Session::fresh()) == vec![0; 65_536]);
  assert_eq!(decode(&[0; 65_536]), Some(Session::fresh()));
  assert_eq!(decode(&[0; 65_535]), None);
  assert_eq!(decode(&[0; 65_537]), None);
}

#[test]
fn sessions_come_back() {
  let mut d = Dice(0x9E37_79B9_7F4A_7C15);
  for round in 0..600 {
    let open = round % 9;
    let entries = if open == 0 { 0 } else { open + d.below([1, 4, 30, 249 - open][round % 4]) };
    let session = d.session(open, entries);
    assert_eq!((session.open(), session.entries.len()), (open, entries));
    assert_eq!(decode(&encode(&session)), Some(session));
  }
}

/// Whatever becomes of a byte, the area is refused or is that of another session.
#[test]
fn each_byte_counts() {
  let mut d = Dice(0xD1B5_4A32_D192_ED03);
  let mut passed = [0, 0];
  for round in 0..4 {
    let session = if round == 0 { small() } else { d.session(round, 2 * round) };
    let area = encode(&session);
    let end = ENTRIES_AT + ENTRY * session.entries.len();
    let mut x = area.clone();
    for at in (0..end + ENTRY).chain((end..AREA).step_by(997)).chain([AREA - 1]) {
      for byte in [0, 1, area[at].wrapping_add(1), d.next() as u8] {
        x[at] = byte;
        let other = decode(&x);
        assert_eq!(other.as_ref() == Some(&session), byte == area[at], "byte {at} to {byte:02X}");
        assert!(at < end || byte == 0 || other.is_none(), "byte {at} behind the entries");
        if let Some(s) = &other {
          assert!(encode(s) == x);
        }
        passed[usize::from(other.is_some())] += 1;
      }
      x[at] = area[at];
    }
  }
  assert!(passed[0] > 1000 && passed[1] > 1000, "{passed:?}");
}

#[test]
fn each_condition_refuses() {
  // byte, what it becomes, is it still the area of a session
  let rows = [
    (0, 2, true), // handed out: 0202, above the last token
    (0, 1, false),
    (1, 0x0F, true),
    (1, 0x10, false),
    (2, 0, false), // a held press behind the flag 0
    (2, 2, false),
    (5, 2, false), // repeat
    (6, 4, false), // location
    (7, 2, false), // a dead key with a text
    (9, 1, false), // second field of a character
    (14, 0, false),
    (14, 1, false),
    (14, 24, true),
    (14, 25, false),
    (15, 0xFF, false),
    (17, 1, false),
    (39, 1, true), // a dead key's number and fields as an unidentified key's
    (39, 3, false),
    (41, 2, false),   // second field of a dead key
    (42, 0xFF, true), // its character
    (43, 0xD8, false),
    (43, 0xE0, true),
    (44, 0x11, false),
    (73, 0, true), // the mark
    (73, 2, false),
    (74, 1, false), // a unit behind the number of units
    (74, 16, true),
    (74, 17, false),
    (79, 1, false),
    (106, 1, false),
    (107, 3, false), // the number of entries
    (107, 5, false),
    (108, 1, false),
    (AT[0], 2, true), // tokens
    (AT[0], 3, false),
    (AT[1], 1, false),
    (AT[1], 2, true),
    (AT[1], 4, false),
    (AT[2] + 1, 3, false),
    (AT[3] + 1, 0, false),
    (AT[3], 2, true),
    (AT[3], 3, false),
    (AT[0] + 2, 1, false), // unresolved or complete
    (AT[1] + 2, 0, false),
    (AT[1] + 2, 2, false),
    (AT[3] + 2, 1, false),
    (AT[0] + 3, 1, false), // the kind of an open message
    (AT[0] + 3, 2, false),
    (AT[3] + 3, 0, true), // a character as the press of the virtual key 1
    (AT[3] + 4, 0, false),
    (AT[3] + 4, 2, false),
    (AT[3] + 5, 1, false),
    (AT[2] + 4, 1, false),
    (AT[0] + 6, 0xFF, true),
    (AT[0] + 7, 2, false),
    (AT[0] + 8, 1, true),
    (AT[0] + 8, 2, false),
    (AT[0] + 9, 1, false),
    (AT[0] + 198, 1, false),
    (AT[2] + 7, 2, false),
    (AT[2] + 8, 4, false),
    (AT[2] + 73, 1, false),
    (AT[1] + 3 + 112, 2, false),
    (AT[1] + 3 + 195, 1, false),
    (AT[3] + 199, 1, false),
    (51_053, 1, false),
    (65_535, 1, false),
  ];
  for (at, byte, fine) in rows {
    let mut x = encode(&small());
    assert_ne!(x[at], byte, "byte {at}");
    x[at] = byte;
    assert_eq!(decode(&x).is_some(), fine, "byte {at} to {byte:02X}");
  }
}

/// Question 4's sentences, one at a time.
#[test]
fn order_and_limits() {
  let press = || EntryState::Press { vkey: 0x31, scancode: 2, extended: false, repeat: false };
  let done = || EntryState::Complete(event());
  let session = |handed, states: Vec<EntryState>| {
    let entries = states.into_iter().zip(0..).map(|(state, token)| Entry { token, state }).collect();
    Session { handed, held: None, entries }
  };
  let with = |open, complete, handed| {
    let states = (0..open).map(|_| press()).chain((0..complete).map(|_| done())).collect();
    decode(&write(&session(handed, states))).is_some()
  };
  assert!(with(0, 0, 0));
  assert!(!with(0, 0, 1));
  assert!(!with(0, 1, 1));
  assert!(with(1, 0, 1) && with(1, 0, 4096));
  assert!(!with(1, 0, 0) && !with(1, 0, 4097) && !with(1, 0, 65_535));
  assert!(with(8, 0, 8) && with(8, 248, 256));
  assert!(!with(9, 0, 9));
  assert!(with(1, 255, 256));
  assert!(!with(1, 256, 257) && !with(1, 255, 255));
  assert!(decode(&write(&session(2, vec![press(), done()]))).is_some());
  assert!(decode(&write(&session(2, vec![done(), press()]))).is_none());
  let mut same = session(2, vec![press(), press()]);
  same.entries[1].token = 0;
  assert!(decode(&write(&same)).is_none());

  let held = |units| {
    let held = Held { info: info(), vkey: 0, mark: false, units: vec![0; units] };
    Session { held: Some(held), ..Session::fresh() }
  };
  assert!(decode(&write(&held(0))).is_some() && decode(&write(&held(16))).is_some());
  assert!(decode(&write(&held(17))).is_none());
}

/// A press and a release keep at most 24 bytes of a character.
#[test]
fn short_texts() {
  for length in 23..=25 {
    let mut x = encode(&small());
    x[3 + 4 + 7] = length;
    x[3 + 4 + 8..3 + 4 + 8 + usize::from(length)].fill(b'a');
    assert_eq!(decode(&x).is_some(), length < 25);
  }
}
