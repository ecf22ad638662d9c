//! The whole shift of crates/station, line by line, on areas of the test's own: what is printed is crates/station/stdout, which is tao's
//! answer to these calls (and, for refused ones, the number of docs/SCOPE.md, 6).
mod common;
use common::*;
use mahjonglarch::*;

struct Shift {
  session: Vec<u8>,
  answers: Vec<u8>,
  state: [u8; KEY_STATE_SIZE],
  block: Vec<u8>,
  card: String,
  printed: String,
}

fn numbers(words: &[&str]) -> Vec<u64> {
  words.iter().map(|word| u64::from_str_radix(word, 16).unwrap()).collect()
}

impl Shift {
  fn open(&mut self, kind: u64, wparam: u64, lparam: u64) {
    self.printed += &format!("message {kind:x} {wparam:02x} {lparam:08x}");
    let (mut token, mut result) = (0, 0);
    let s = &mut *self;
    let number = raw::open(
      &mut s.session,
      &mut s.answers,
      &s.state,
      &s.block,
      UNICODE,
      kind as u32,
      wparam,
      lparam,
      &mut token,
      &mut result,
    );
    if number != 0 {
      return self.refused(number);
    }
    self.printed += &if token == raw::NONE { ": opens none".into() } else { format!(": token {token:x}") };
    // the program's message result is the default procedure's before each call
    self.printed += [", default procedure", ", default procedure", ", result 0"][result as usize];
    self.hand_out();
  }

  fn finish(&mut self, token: u64, peeked: &[u64]) {
    let peek = match *peeked {
      [kind, wparam, lparam] => format!("{kind:x} {wparam:02x} {lparam:08x}"),
      _ => "nothing".into(),
    };
    self.printed += &format!("finish {token:x}, peeked {peek}");
    let m = if peeked.is_empty() { &[0; 3] } else { peeked };
    let s = &mut *self;
    let number = raw::finish(
      &mut s.session,
      &mut s.answers,
      &s.state,
      &s.block,
      UNICODE,
      token as u32,
      u32::from(!peeked.is_empty()),
      m[0] as u32,
      m[1],
      m[2],
    );
    if number != 0 {
      return self.refused(number);
    }
    self.hand_out();
  }

  fn refused(&mut self, number: u32) {
    self.printed += &format!(": refused {number}\n");
  }

  fn hand_out(&mut self) {
    self.printed += "\n";
    for i in 0..raw::event_count(&self.answers) {
      let event = Event::read(&self.answers, i).unwrap();
      self.printed += &format!("    {event}\n");
      if event.state == ElementState::Pressed && !event.synthetic {
        self.card += event.text.as_deref().unwrap_or("");
      }
    }
  }

  fn line(&mut self, line: &str) {
    let words: Vec<&str> = line.split(' ').collect();
    match words[0] {
      "#" => self.printed += &format!("{line}\n"),
      "layout" => self.block = layout(words[1]),
      "keys" => {
        self.state.fill(0);
        numbers(&words[1..]).iter().for_each(|key| self.state[*key as usize] = 0x80);
      }
      "message" => {
        let m = numbers(&words[1..]);
        self.open(m[0], m[1], m[2]);
      }
      "finish" => {
        let m = numbers(&words[1..]);
        self.finish(m[0], &m[1..]);
      }
      "card" => {
        self.printed += &format!("card \"{}\"\n", self.card);
        self.card.clear();
      }
      _ => panic!("{line}"),
    }
  }
}

/// The layouts of the shift: the second is the first with its AltGr flag set.
fn layout(number: &str) -> Vec<u8> {
  let mut us = US.to_vec();
  us[0] = u8::from(number == "1");
  if number == "2" {
    ACCENT.to_vec()
  } else {
    us
  }
}

#[test]
fn the_shift_of_the_station() {
  let mut shift = Shift {
    session: vec![0xAA; AREA_SIZE],
    answers: vec![0xAA; AREA_SIZE],
    state: [0; KEY_STATE_SIZE],
    block: layout("0"),
    card: String::new(),
    printed: String::new(),
  };
  assert_eq!(raw::fresh(&mut shift.session), 0);
  include_str!("../../../crates/station/stdin").lines().for_each(|line| shift.line(line));
  for (printed, tao) in shift.printed.lines().zip(include_str!("../../../crates/station/stdout").lines()) {
    assert_eq!(printed, tao);
  }
  assert_eq!(shift.printed, include_str!("../../../crates/station/stdout"));
  assert!(shift.session.iter().all(|byte| *byte == 0));
}
