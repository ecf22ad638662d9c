//! Events, 196 bytes each, and the answer area: their number, the events, zeros behind them.
use crate::{
  block::{native_at, native_number},
  fields::{flag, key, location, long, put_key, put_text, text, word, SHORT, TYPED},
};
use kbtypes::{Code, ElementState, Event, CODE_NAMES};

pub use crate::fields::AREA;
pub const EVENT: usize = 196;
/// The most events of one call.
pub const MOST: usize = 256;

pub fn encode(e: &Event) -> [u8; EVENT] {
  let mut out = [0; EVENT];
  match e.physical_key {
    Code::Named(place) => out[5] = u8::try_from(place).unwrap(),
    Code::Unidentified(native) => {
      let (kind, value) = native_number(native);
      out[..4].copy_from_slice(&value.to_le_bytes());
      out[4] = kind;
    }
  }
  put_key(&mut out[6..], TYPED, &e.logical_key);
  put_text(&mut out[62..], TYPED, e.text.as_deref());
  out[111] = e.location as u8;
  out[112] = e.state as u8;
  out[113] = e.repeat.into();
  out[114] = e.synthetic.into();
  put_text(&mut out[115..], TYPED, e.text_with_all_modifiers.as_deref());
  put_key(&mut out[164..], SHORT, &e.key_without_modifiers);
  out
}

/// An identified code has no native one.
fn physical_key(bytes: &[u8]) -> Option<Code> {
  let native = native_at(bytes[4], long(bytes, 0))?;
  match u16::from(bytes[5]) {
    0 => Some(Code::Unidentified(native)),
    place => (usize::from(place) < CODE_NAMES.len()).then_some(Code::Named(place)),
  }
}

/// The event that these bytes are.
pub fn decode(bytes: &[u8]) -> Option<Event> {
  if bytes.len() != EVENT {
    return None;
  }
  let event = Event {
    physical_key: physical_key(bytes)?,
    logical_key: key(bytes, 6, TYPED)?,
    text: text(bytes, 62)?.map(Into::into),
    location: location(bytes[111])?,
    state: if flag(bytes[112])? { ElementState::Released } else { ElementState::Pressed },
    repeat: flag(bytes[113])?,
    synthetic: flag(bytes[114])?,
    text_with_all_modifiers: text(bytes, 115)?.map(Into::into),
    key_without_modifiers: key(bytes, 164, SHORT)?,
  };
  (encode(&event)[..] == *bytes).then_some(event)
}

/// The whole area behind a call that hands out these events.
pub fn answers(events: &[Event]) -> Vec<u8> {
  let mut out = u16::try_from(events.len()).unwrap().to_le_bytes().to_vec();
  out.extend(events.iter().flat_map(encode));
  assert!(events.len() <= MOST);
  out.resize(AREA, 0);
  out
}

/// The events in an answer area, if it is one.
pub fn decode_answers(area: &[u8]) -> Option<Vec<Event>> {
  if area.len() != AREA || usize::from(word(area, 0)) > MOST {
    return None;
  }
  let (events, behind) = area[2..].split_at(EVENT * usize::from(word(area, 0)));
  let events = events.chunks_exact(EVENT).map(decode).collect::<Option<Vec<Event>>>()?;
  behind.iter().all(|b| *b == 0).then_some(events)
}

#[cfg(test)]
mod tests {
  use super::*;
  use crate::dice::Dice;
  use kbtypes::{Key, Location, Native};

  fn event() -> Event {
    Event {
      physical_key: Code::Unidentified(Native::Windows(0x7F)),
      logical_key: Key::Character("é".into()),
      text: Some("a".into()),
      location: Location::Numpad,
      state: ElementState::Released,
      repeat: true,
      synthetic: false,
      text_with_all_modifiers: None,
      key_without_modifiers: Key::Unidentified(Native::Android(-2)),
    }
  }

  /// The offsets are those of docs/AREAS.md.
  #[test]
  fn every_field_has_its_place() {
    let mut expected = [0; EVENT];
    expected[0] = 0x7F;
    expected[4] = 1;
    expected[6 + 7..6 + 10].copy_from_slice(&[2, 0xC3, 0xA9]);
    expected[62..64].copy_from_slice(&[1, b'a']);
    expected[111..115].copy_from_slice(&[3, 1, 1, 0]);
    expected[164..171].copy_from_slice(&[1, 0, 4, 0xFE, 0xFF, 0xFF, 0xFF]);
    assert_eq!(encode(&event()), expected);
  }

  #[test]
  fn events_come_back() {
    let mut d = Dice(0x9E37_79B9_7F4A_7C15);
    for round in 0..300 {
      let events: Vec<Event> = (0..round % 9).map(|_| d.event()).collect();
      assert_eq!(decode_answers(&answers(&events)), Some(events));
    }
    let most: Vec<Event> = (0..MOST).map(|_| d.event()).collect();
    assert_eq!(decode_answers(&answers(&most)), Some(most));
  }

  #[test]
  fn each_condition_refuses() {
    // byte, what it becomes, is it still an event
    let rows = [
      (2, 1, false), // a value of 16 bits
      (4, 0, false), // an unidentified native code has no value
      (4, 3, true),
      (4, 4, true),
      (4, 5, false),
      (5, 1, false), // an identified code has no native one
      (6, 2, false), // a dead key has no text
      (7, 1, false),
      (8, 1, false), // second and third field of a character
      (9, 1, false),
      (13, 0, false),
      (13, 1, false),  // half a character
      (13, 3, true),   // a character 0 behind
      (13, 49, false), // no room
      (14, 0xFF, false),
      (16, 1, false), // behind the text
      (62, 0, false),
      (62, 49, false),
      (63, 0x80, false),
      (110, 1, false),
      (111, 4, false),
      (112, 2, false),
      (112, 0, true),
      (113, 2, false),
      (114, 2, false),
      (114, 1, true),
      (115, 1, true), // the text 0
      (115, 49, false),
      (116, 1, false),
      (164, 0, false),
      (164, 3, false),
      (166, 5, false),
      (171, 1, false),
      (195, 1, false),
    ];
    for (at, byte, fine) in rows {
      let mut x = encode(&event());
      assert_ne!(x[at], byte);
      x[at] = byte;
      assert_eq!(decode(&x).is_some(), fine, "byte {at} to {byte:02X}");
    }
    for (place, fine) in [(1, true), (194, true), (195, false), (255, false)] {
      let mut x = encode(&event());
      x[..6].copy_from_slice(&[0, 0, 0, 0, 0, place]);
      assert_eq!(decode(&x).is_some(), fine);
    }
    // 24 bytes in the key without modifiers, not more
    for (length, fine) in [(24, true), (25, false)] {
      let mut x = encode(&event());
      x[164..].fill(0);
      x[171] = length;
      assert_eq!(decode(&x).is_some(), fine);
    }
  }

  #[test]
  fn zeros_behind() {
    let area = answers(&[event(), event()]);
    assert_eq!((area.len(), &area[..2]), (AREA, &[2, 0][..]));
    assert_eq!(area[2 + EVENT..2 + 2 * EVENT], encode(&event()));
    assert!(area[2 + 2 * EVENT..].iter().all(|b| *b == 0));
    for at in [0, 1, 2 + 2 * EVENT, 50_178, AREA - 1] {
      let mut x = area.clone();
      x[at] = if at == 0 { 1 } else { 2 };
      assert_eq!(decode_answers(&x), None, "byte {at}");
    }
    assert_eq!(decode_answers(&area[..AREA - 1]), None);
    // 256 events in a row of zeros that are no events; 257 are too many
    let mut x = vec![0; AREA];
    x[1] = 1;
    assert_eq!(decode_answers(&x), None);
    let mut x = answers(&vec![event(); MOST]);
    x.copy_within(2..2 + EVENT, 2 + MOST * EVENT);
    x[0] = 1;
    assert_eq!(decode_answers(&x), None);
  }
}
