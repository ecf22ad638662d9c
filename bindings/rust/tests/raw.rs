//! The calls that make and read areas, on bytes that are in order and on others. The offsets are those of docs/AREAS.md.
mod common;
use common::*;
use mahjonglarch::{raw::NONE, *};

/// Where event i begins in an answer area.
fn at(i: usize) -> usize {
  2 + 196 * i
}

/// The answers that hand out the press and the release of 1, in one area.
fn two_events() -> Vec<u8> {
  let mut host = Host::new();
  host.open(release('2')).unwrap();
  host.press_digit('1');
  host.keys(&[]);
  host.open(release('1')).unwrap();
  host.finish(None).unwrap();
  host.finish(None).unwrap();
  let mut area = host.answers.as_bytes().to_vec();
  assert_eq!(area[..2], [3, 0]);
  // without the first, the release of 2
  area.copy_within(at(1)..at(3), at(0));
  area[0] = 2;
  area[at(2)..at(3)].fill(0);
  area
}

/// Event i is not read, and what was to take it keeps its values.
#[track_caller]
fn unread(area: &[u8], i: u32) {
  let (mut fields, mut text) = ([9; raw::FIELDS], [9; TEXT_MOST]);
  assert_eq!(raw::event(area, i, &mut fields), 1);
  for which in 0..4 {
    assert_eq!(raw::event_text(area, i, which, &mut text), NONE);
  }
  assert_eq!((fields, text), ([9; raw::FIELDS], [9; TEXT_MOST]));
  assert_eq!(Event::read(area, i), None);
}

#[test]
fn fresh_is_zeros_of_one_size() {
  let mut area = vec![0xAA; AREA_SIZE];
  assert_eq!(raw::fresh(&mut area), 0);
  assert!(area.iter().all(|byte| *byte == 0));
  for size in [0, 1, AREA_SIZE - 1, AREA_SIZE + 1] {
    let mut other = vec![0xAA; size];
    assert_eq!(raw::fresh(&mut other), 1);
    assert!(other.iter().all(|byte| *byte == 0xAA));
  }
}

#[test]
fn counts() {
  let mut area = two_events();
  assert_eq!(raw::event_count(&area), 2);
  assert_eq!(raw::event_count(&area[1..]), NONE);
  assert_eq!(raw::event_count(&[]), NONE);
  area.push(0);
  assert_eq!(raw::event_count(&area), NONE);
  let mut area = vec![0; AREA_SIZE];
  assert_eq!(raw::event_count(&area), 0);
  area[1] = 1;
  assert_eq!(raw::event_count(&area), 256);
  area[0] = 1;
  assert_eq!(raw::event_count(&area), NONE);
}

/// tao's answers: Digit1 is at 7 in KeyCode, and a press types its digit.
#[test]
fn fields_and_texts() {
  let area = two_events();
  let (mut fields, mut text) = ([9; raw::FIELDS], [9; TEXT_MOST]);
  assert_eq!(raw::event(&area, 0, &mut fields), 0);
  assert_eq!(fields, [7, 0, 0, 0, 0, 0, 0, 0, 0, 0, 0, 0, 0, 1, 1, 1, 1]);
  for which in 0..4 {
    text.fill(9);
    assert_eq!(raw::event_text(&area, 0, which, &mut text), 1);
    assert_eq!((text[0], &text[1..]), (b'1', &[9; TEXT_MOST - 1][..]));
  }
  assert_eq!(raw::event(&area, 1, &mut fields), 0);
  assert_eq!(fields, [7, 0, 0, 0, 0, 0, 0, 1, 0, 0, 0, 0, 0, 1, 0, 0, 1]);
  let lengths = [0, 1, 2, 3].map(|which| raw::event_text(&area, 1, which, &mut text));
  assert_eq!(lengths, [1, 0, 0, 1]);
}

#[test]
fn no_such_event() {
  let area = two_events();
  for i in [2, 3, 255, 256, 0x8000_0000, u32::MAX] {
    unread(&area, i);
  }
  unread(&[], 0);
  unread(&area[1..], 0);
  unread(&vec![0; AREA_SIZE], 0);
}

#[test]
fn fields_of_another_length() {
  let area = two_events();
  for length in [0, 1, raw::FIELDS - 1, raw::FIELDS + 1, 40] {
    let mut fields = vec![9; length];
    assert_eq!(raw::event(&area, 0, &mut fields), 1);
    assert_eq!(fields, vec![9; length]);
  }
}

#[test]
fn no_such_text_or_no_room() {
  let area = two_events();
  let mut text = [9; TEXT_MOST];
  for which in [4, 5, 255, u32::MAX] {
    assert_eq!(raw::event_text(&area, 0, which, &mut text), NONE);
  }
  for length in [0, 1, TEXT_MOST - 1] {
    assert_eq!(raw::event_text(&area, 0, 1, &mut text[..length]), NONE);
  }
  assert_eq!(text, [9; TEXT_MOST]);
  let mut longer = [9; 2 * TEXT_MOST];
  assert_eq!(raw::event_text(&area, 0, 1, &mut longer), 1);
  assert_eq!((longer[0], &longer[1..]), (b'1', &[9; 2 * TEXT_MOST - 1][..]));
}

/// Bytes that no event has.
#[test]
fn not_an_event() {
  let changes: [(usize, u8); 12] = [
    (5, 195),      // KeyCode has 195 cases
    (4, 1),        // an identified code has no native code
    (6 + 1, 2),    // Key has 308 cases
    (6 + 2, 1),    // a character has no second field
    (6 + 7, 49),   // a text of 49 bytes
    (6 + 7, 0),    // a character without a text
    (6 + 8, 0xFF), // no UTF-8
    (62, 49),      // a text of 49 bytes
    (111, 4),      // four locations
    (112, 2),      // two states
    (113, 2),      // yes or no
    (164 + 7, 25), // a text of 25 bytes
  ];
  for (offset, byte) in changes {
    let mut area = two_events();
    area[at(0) + offset] = byte;
    unread(&area, 0);
    assert!(Event::read(&area, 1).is_some());
  }
}

/// Each byte of an event changed to each value: what is still read has just these bytes, so no two of them stand for the same event.
#[test]
fn one_form_of_an_event() {
  let mut area = two_events();
  let mut read = 0;
  for offset in at(0)..at(1) {
    let was = area[offset];
    for byte in 0..=255 {
      area[offset] = byte;
      let event = Event::read(&area, 0);
      assert_eq!(event.is_some(), raw::event(&area, 0, &mut [0; raw::FIELDS]) == 0);
      if let Some(event) = event {
        assert_eq!(event_bytes(&event), area[at(0)..at(1)]);
        read += 1;
      }
    }
    area[offset] = was;
  }
  println!("{read} of {} are events", 196 * 256);
  assert!(read > 196); // the event itself, once for each of its bytes, and others
}
