//! A host as small as the tests need it. The layouts are those of crates/station: us.block is the US layout as tao prepares it. The break table
//! is Unicode's, and one of no ranges stands beside it.
#![allow(dead_code)] // no test uses all of it
use mahjonglarch::*;

pub const US: &[u8] = include_bytes!("../../../../crates/station/data/us.block");
pub const ACCENT: &[u8] = include_bytes!("../../../../crates/station/data/accent.block");
pub const UNICODE: &[u8] = include_bytes!("../../../../tables/unicode-15.0.breaks");
pub const NO_RANGES: &[u8] = &[0; 8];

/// The events of tao's answers to the shift of crates/station, by their heading.
pub fn tao_events(heading: &str) -> Vec<&'static str> {
  let all = include_str!("../../../../crates/station/stdout");
  let from = all.find(heading).expect("a heading of the shift") + heading.len();
  let lines = all[from..].lines().skip(1).take_while(|line| !line.starts_with('#'));
  lines.filter_map(|line| line.strip_prefix("    ")).collect()
}

pub fn shown(events: &[Event]) -> Vec<String> {
  events.iter().map(Event::to_string).collect()
}

pub fn scan_code(digit: char) -> u64 {
  match digit {
    '0' => 0x0B,
    _ => u64::from(digit) - u64::from('0') + 1,
  }
}

pub fn press(digit: char) -> Message {
  Message::new(WM_KEYDOWN, digit.into(), scan_code(digit) << 16 | 1)
}

pub fn character(digit: char) -> Message {
  Message::new(WM_CHAR, digit.into(), scan_code(digit) << 16 | 1)
}

pub fn release(digit: char) -> Message {
  Message::new(WM_KEYUP, digit.into(), 0xC000_0001 | scan_code(digit) << 16)
}

/// A session with what is open in it, and the events of all its calls.
pub struct Host {
  pub session: Session,
  pub answers: Answers,
  pub state: [u8; KEY_STATE_SIZE],
  pub block: &'static [u8],
  pub table: &'static [u8],
  pub open: Vec<Token>,
  pub events: Vec<Event>,
}

impl Host {
  pub fn new() -> Host {
    Host {
      session: Session::new(),
      answers: Answers::new(),
      state: [0; KEY_STATE_SIZE],
      block: US,
      table: UNICODE,
      open: vec![],
      events: vec![],
    }
  }

  /// These keys are down, all others up.
  pub fn keys(&mut self, down: &[u8]) {
    self.state = [0; KEY_STATE_SIZE];
    down.iter().for_each(|key| self.state[usize::from(*key)] = 0x80);
  }

  /// Brings a message: the number of the token that it opened, and the message result's change.
  pub fn open(&mut self, message: Message) -> Result<(Option<u32>, ResultChange), Refusal> {
    let keyboard = Keyboard { state: &self.state, block: self.block, table: self.table };
    let opened = self.session.open(&mut self.answers, keyboard, message)?;
    self.events.extend(opened.events);
    let number = opened.token.as_ref().map(Token::number);
    self.open.extend(opened.token);
    Ok((number, opened.result))
  }

  /// Finishes the latest open message: how many events it handed out.
  pub fn finish(&mut self, peeked: impl Into<Peeked>) -> Result<usize, Refusal> {
    let token = self.open.pop().expect("a message is open");
    let keyboard = Keyboard { state: &self.state, block: self.block, table: self.table };
    match self.session.finish(&mut self.answers, keyboard, token, peeked.into()) {
      Ok(events) => {
        let count = events.len();
        self.events.extend(events);
        Ok(count)
      }
      Err(not) => {
        self.open.push(not.token);
        Err(not.refusal)
      }
    }
  }

  /// A press is held: what it types is still to come.
  pub fn hold(&mut self, digit: char) {
    self.keys(&[digit as u8]);
    self.open(press(digit)).unwrap();
    self.finish(Some(character(digit))).unwrap();
  }

  pub fn press_digit(&mut self, digit: char) {
    self.hold(digit);
    self.open(character(digit)).unwrap();
    self.finish(Some(release(digit))).unwrap();
  }

  pub fn type_digit(&mut self, digit: char, next: Option<char>) {
    self.press_digit(digit);
    self.keys(&[]);
    self.open(release(digit)).unwrap();
    self.finish(next.map(press)).unwrap();
  }

  pub fn type_digits(&mut self, digits: &str) {
    let mut rest = digits.chars();
    while let Some(digit) = rest.next() {
      self.type_digit(digit, rest.clone().next());
    }
  }

  /// What was typed: the texts of presses that no focus change wrote.
  pub fn card(&self) -> String {
    let typed = self.events.iter().filter(|e| e.state == ElementState::Pressed && !e.synthetic);
    typed.filter_map(|e| e.text).map(|text| text.to_string()).collect()
  }

  /// Both areas, to see that a call changed neither.
  pub fn areas(&self) -> (Vec<u8>, Vec<u8>) {
    (self.session.as_bytes().to_vec(), self.answers.as_bytes().to_vec())
  }
}

/// The first bytes of an event's key, by what this crate says of it: number, second and third field, length, text.
fn key_bytes(key: &Key) -> Vec<u8> {
  let (number, second, third, text) = match key {
    Key::Character(text) => (0, 0, 0, text.as_str()),
    Key::Unidentified(native) => (1, native.numbers().0, native.numbers().1, ""),
    Key::Dead(None) => (2, 0, 0, ""),
    Key::Dead(Some(c)) => (2, 1, u32::from(*c), ""),
    Key::Named(named) => (named.number(), 0, 0, ""),
  };
  let mut bytes = number.to_le_bytes().to_vec();
  bytes.push(second as u8);
  bytes.extend(third.to_le_bytes());
  bytes.extend(text_bytes(text));
  bytes
}

fn text_bytes(text: &str) -> Vec<u8> {
  let mut bytes = vec![text.len() as u8];
  bytes.extend(text.as_bytes());
  bytes
}

/// An event's 196 bytes, by what this crate says of it (docs/AREAS.md).
pub fn event_bytes(event: &Event) -> Vec<u8> {
  let mut bytes = vec![0; 196];
  let mut put = |at: usize, part: &[u8]| bytes[at..at + part.len()].copy_from_slice(part);
  match event.physical_key {
    PhysicalKey::Unidentified(native) => {
      let (kind, value) = native.numbers();
      put(0, &value.to_le_bytes());
      put(4, &[kind as u8]);
    }
    PhysicalKey::Code(code) => put(5, &[code.number() as u8]),
  }
  put(6, &key_bytes(&event.logical_key));
  put(62, &text_bytes(event.text.as_deref().unwrap_or("")));
  put(111, &[event.location as u8, event.state as u8, event.repeat.into(), event.synthetic.into()]);
  put(115, &text_bytes(event.text_with_all_modifiers.as_deref().unwrap_or("")));
  put(164, &key_bytes(&event.key_without_modifiers));
  bytes
}
