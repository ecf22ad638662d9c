//! Typed texts and the keys that they become (docs/SCOPE.md, 3.13): a text of one piece does, one of several leaves the layout's key. The pieces
//! are the extended grapheme clusters of Unicode Annex 29 without GB9c, by the break table that the finish of the last character brings.
mod common;
use common::*;
use mahjonglarch::*;

/// Types a text with one press of 1, a character message for each scalar value.
fn press_of(text: &[u32], opens: &'static [u8], last: &'static [u8]) -> Event {
  let unit = |c: &u32| Message::new(WM_CHAR, u64::from(*c), 0x0002_0001);
  let mut host = Host::new();
  host.keys(b"1");
  host.table = opens;
  host.open(press('1')).unwrap();
  host.finish(Some(unit(&text[0]))).unwrap();
  for (i, c) in text.iter().enumerate() {
    host.open(unit(c)).unwrap();
    match text.get(i + 1) {
      Some(next) => assert_eq!(host.finish(Some(unit(next))), Ok(0)),
      None => {
        host.table = last;
        assert_eq!(host.finish(None), Ok(1));
      }
    }
  }
  assert!(host.session.is_fresh());
  host.events[0]
}

/// Whether the text became the logical key; where it did not, the layout's key stands.
#[track_caller]
fn becomes_key(text: &[u32], opens: &'static [u8], last: &'static [u8]) -> bool {
  let event = press_of(text, opens, last);
  let typed: String = text.iter().map(|c| char::from_u32(*c).unwrap()).collect();
  assert_eq!(event.text.as_deref(), Some(typed.as_str()));
  let Key::Character(key) = event.logical_key else { panic!("{event}") };
  assert!(key == typed.as_str() || key == "1");
  key == typed.as_str()
}

#[test]
fn by_unicode() {
  let one: [&[u32]; 9] = [
    &[0x65, 0x301],                     // a letter and its accent
    &[0x65, 0x200D],                    // and a joiner
    &[0x0D, 0x0A],                      // GB3
    &[0x1100, 0x1161, 0x11A8],          // GB6 to GB8: a Hangul syllable in three parts
    &[0x915, 0x93E],                    // GB9a: a spacing mark
    &[0x600, 0x31],                     // GB9b: a prepended sign
    &[0x1F468, 0x200D, 0x1F469],        // GB11: two pictographs, joined
    &[0x1F468, 0x308, 0x200D, 0x1F469], // with an accent before the joiner
    &[0x1F1E9, 0x1F1EA],                // GB12: a flag
  ];
  for text in one {
    assert!(becomes_key(text, UNICODE, UNICODE), "{text:X?}");
  }
  let several: [&[u32]; 8] = [
    &[0x65, 0x31],                      // two letters
    &[0x0A, 0x0D],                      // GB4, GB5
    &[0x0A, 0x301],                     // nothing joins a control
    &[0x61, 0x200D, 0x1F469],           // no pictograph before the joiner
    &[0x1F1E6, 0x1F1E7, 0x1F1E8],       // a flag and a half
    &[0x61, 0x1F1E6, 0x1F1E7, 0x1F1E8], // GB13
    &[0x915, 0x94D, 0x937],             // GB9c is not among the rules
    &[0xAC01, 0x1161],                  // a whole syllable and a vowel
  ];
  for text in several {
    assert!(!becomes_key(text, UNICODE, UNICODE), "{text:X?}");
  }
}

/// Classes come from the table alone: with no ranges each scalar value is a piece.
#[test]
fn by_no_ranges() {
  for text in [[0x65, 0x301], [0x0D, 0x0A], [0x1F1E9, 0x1F1EA]] {
    assert!(!becomes_key(&text, NO_RANGES, NO_RANGES));
  }
  assert!(becomes_key(&[0x301], NO_RANGES, NO_RANGES)); // a text of one scalar value does not ask the table
}

/// The table of the last character's finish counts, not that of an open or of an earlier finish.
#[test]
fn the_table_of_the_finish() {
  assert!(becomes_key(&[0x65, 0x301], NO_RANGES, UNICODE));
  assert!(!becomes_key(&[0x65, 0x301], UNICODE, NO_RANGES));
}
