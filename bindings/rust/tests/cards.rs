//! Cards typed through the safe calls. Unless a test says otherwise the messages are those of crates/station/stdin, and the events are tao's
//! own answers to them, as crates/station/stdout has them.
mod common;
use common::*;
use mahjonglarch::*;

#[test]
fn digits_of_a_card() {
  let mut host = Host::new();
  host.type_digits("89310410106543789301");
  assert_eq!(shown(&host.events), tao_events("# a card from the scanner"));
  assert_eq!(host.card(), "89310410106543789301");
  assert!(host.session.is_fresh());
}

/// The same press and release as numbers: tao's KeyCode has Digit8 at 14.
#[test]
fn fields_of_an_event() {
  let mut host = Host::new();
  host.type_digit('8', None);
  let [pressed, released] = host.events[..] else { panic!("{:?}", host.events) };
  let character = |key: Key| matches!(key, Key::Character(text) if text == "8");
  for event in [pressed, released] {
    assert_eq!(event.physical_key, PhysicalKey::Code(KeyCode::Digit8));
    assert!(character(event.logical_key) && character(event.key_without_modifiers));
    assert_eq!((event.location, event.repeat, event.synthetic), (KeyLocation::Standard, false, false));
  }
  assert_eq!((pressed.state, released.state), (ElementState::Pressed, ElementState::Released));
  assert_eq!(pressed.text.as_deref(), Some("8"));
  assert_eq!(pressed.text_with_all_modifiers.as_deref(), Some("8"));
  assert_eq!((released.text, released.text_with_all_modifiers), (None, None));
  assert_eq!(KeyCode::Digit8.number(), 14);
}

#[test]
fn focus_lost_while_a_key_is_down() {
  let mut host = Host::new();
  host.type_digits("8931041010");
  host.press_digit('4');
  assert_eq!(host.open(Message::new(WM_KILLFOCUS, 0, 0)), Ok((None, ResultChange::Kept)));
  host.keys(&[]);
  assert_eq!(host.open(Message::new(WM_SETFOCUS, 0, 0)), Ok((None, ResultChange::Kept)));
  host.type_digits("378930265");
  assert_eq!(
    shown(&host.events),
    tao_events("# a card: the focus is lost while the key 4 is down, and gained when it is up")
  );
  assert_eq!(host.card(), "89310410104378930265");
  assert!(host.session.is_fresh());
}

/// The release of 5 arrives while the press of 6 peeks, and waits for it; focus is lost and gained while the release of 6 peeks.
#[test]
fn nested_release_and_focus() {
  let mut host = Host::new();
  host.type_digits("8931041010");
  host.press_digit('5');

  host.keys(b"6");
  assert_eq!(host.open(press('6')), Ok((Some(0), ResultChange::Zero)));
  host.keys(&[]);
  assert_eq!(host.open(release('5')), Ok((Some(1), ResultChange::Zero)));
  assert_eq!(host.finish(None), Ok(0));
  host.keys(b"6");
  assert_eq!(host.finish(Some(character('6'))), Ok(1));
  host.open(character('6')).unwrap();
  assert_eq!(host.finish(Some(release('6'))), Ok(1));

  host.keys(&[]);
  host.open(release('6')).unwrap();
  host.keys(b"6");
  assert_eq!(host.open(Message::new(WM_KILLFOCUS, 0, 0)), Ok((None, ResultChange::Kept)));
  assert_eq!(host.open(Message::new(WM_SETFOCUS, 0, 0)), Ok((None, ResultChange::Kept)));
  host.keys(&[]);
  assert_eq!(host.finish(None), Ok(3));

  host.type_digits("43789318");
  let heading =
    "# a card: the release of 5 arrives while the press of 6 peeks, focus lost and gained while the release of 6 does";
  assert_eq!(shown(&host.events), tao_events(heading));
  assert_eq!(host.card(), "89310410105643789318");
  assert!(host.session.is_fresh());
}

#[test]
fn dead_key_and_the_letter_that_it_joins() {
  let mut host = Host::new();
  host.block = ACCENT;
  let accent = |kind, wparam, lparam| Message::new(kind, wparam, lparam);
  host.keys(&[0xDD]);
  host.open(accent(WM_KEYDOWN, 0xDD, 0x000D_0001)).unwrap();
  let dead = accent(WM_DEADCHAR, 0xB4, 0x000D_0001);
  host.finish(Some(dead)).unwrap();
  assert_eq!(host.open(dead), Ok((None, ResultChange::Zero)));
  assert_eq!(host.events[0].logical_key, Key::Dead(Some('´')));
  host.keys(&[]);
  host.open(accent(WM_KEYUP, 0xDD, 0xC00D_0001)).unwrap();
  host.finish(None).unwrap();
  host.keys(&[0x45]);
  host.open(accent(WM_KEYDOWN, 0x45, 0x0012_0001)).unwrap();
  let letter = accent(WM_CHAR, 0xE9, 0x0012_0001);
  host.finish(Some(letter)).unwrap();
  host.open(letter).unwrap();
  host.finish(None).unwrap();
  host.keys(&[]);
  host.open(accent(WM_KEYUP, 0x45, 0xC012_0001)).unwrap();
  host.finish(None).unwrap();
  assert_eq!(shown(&host.events), tao_events("# a dead key, and the letter that it joins"));
  assert!(host.session.is_fresh());
}

/// docs/SCOPE.md, 3.2, 3.3, 3.9: 104 with the whole wParam 73 does nothing and `result` stays, 10073 is an ordinary press; a press by 104 has the default
/// procedure's result; an unhandled kind and a character with no press held are ignored.
#[test]
fn what_becomes_of_the_message_result() {
  let mut host = Host::new();
  assert_eq!(host.open(Message::new(WM_SYSKEYDOWN, 0x73, 0x203E_0001)), Ok((None, ResultChange::Kept)));
  assert_eq!(host.open(Message::new(0x200, 0x31, 0x0002_0001)), Ok((None, ResultChange::Kept)));
  assert_eq!(host.open(character('1')), Ok((None, ResultChange::Kept)));
  assert!(host.session.is_fresh());
  assert_eq!(
    host.open(Message::new(WM_SYSKEYDOWN, 0x10073, 0x203E_0001)),
    Ok((Some(0), ResultChange::DefaultProcedure))
  );
  host.finish(None).unwrap();
  assert_eq!(host.open(Message::new(WM_SYSKEYUP, 0x73, 0xE03E_0001)), Ok((Some(0), ResultChange::Zero)));
  host.finish(None).unwrap();
  assert!(host.session.is_fresh());
}

/// docs/SCOPE.md, 8.1: D83D DE00 is the bytes F0 9F 98 80, in one event that the last unit completes.
#[test]
fn a_pair_of_surrogates() {
  let mut host = Host::new();
  let unit = |unit| Message::new(WM_CHAR, unit, 0x0002_0001);
  host.keys(b"1");
  host.open(press('1')).unwrap();
  host.finish(Some(unit(0xD83D))).unwrap();
  host.open(unit(0xD83D)).unwrap();
  assert_eq!(host.finish(Some(unit(0xDE00))), Ok(0));
  host.open(unit(0xDE00)).unwrap();
  assert_eq!(host.finish(None), Ok(1));
  assert_eq!(host.events[0].text.unwrap().as_bytes(), [0xF0, 0x9F, 0x98, 0x80]);
}

/// Demand 3: whatever was open or refused, once all is finished, latest first, and no press is held, the area is a fresh one.
#[test]
fn fresh_after_closings() {
  let mut host = Host::new();
  host.hold('7');
  host.open(press('1')).unwrap();
  host.open(character('7')).unwrap();
  host.open(release('2')).unwrap();
  host.open(Message::new(WM_KILLFOCUS, 0, 0)).unwrap();
  host.open(press('3')).unwrap();
  while host.open.len() < OPEN_MOST {
    host.open(release('4')).unwrap();
  }
  assert_eq!(host.open(press('5')), Err(Refusal::TooManyOpen));
  assert!(!host.session.is_fresh());
  while !host.open.is_empty() {
    host.finish(None).unwrap();
  }
  assert!(host.session.is_fresh());
}
