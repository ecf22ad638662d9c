//! A card typed by the scanner, with the focus lost and gained in its midst, a message that arrives while another one peeks, and a finish that
//! is refused and brought again: each event, and the digits that the events brought.
//!
//!     cargo run --offline --example shift
use mahjonglarch::*;
use std::{
  cell::{Cell, RefCell},
  collections::VecDeque,
};

const CARD: &str = "89310410106543789301";
const BLOCK: &[u8] = include_bytes!("../../../crates/station/data/us.block");
/// Unicode's break table: the same for every layout, so it is read once.
const TABLE: &[u8] = include_bytes!("../../../tables/unicode-15.0.breaks");

/// How often a finish is brought again before the station stops.
const FINISH_TRIES: usize = 3;

/// What a window procedure has beside it. Windows enters the procedure again while it peeks, so nothing is borrowed across the peek: each call
/// borrows session and answers, takes the events, and gives them back.
struct Host {
  session: RefCell<Session>,
  answers: RefCell<Answers>,
  state: RefCell<[u8; KEY_STATE_SIZE]>,
  typed: RefCell<String>,
  /// The messages that Windows sends while the procedure peeks.
  sent: RefCell<VecDeque<Message>>,
  /// How many more times the layout is read while its block is not in order.
  bad_reads: Cell<usize>,
}

impl Host {
  fn new() -> Host {
    Host {
      session: Session::new().into(),
      answers: Answers::new().into(),
      state: [0; KEY_STATE_SIZE].into(),
      typed: String::new().into(),
      sent: VecDeque::new().into(),
      bad_reads: 0.into(),
    }
  }

  /// The block of the layout in force, read anew for each half of a message.
  fn block(&self) -> &'static [u8] {
    let bad = self.bad_reads.get();
    self.bad_reads.set(bad.saturating_sub(1));
    &BLOCK[..BLOCK.len() - usize::from(bad > 0)]
  }

  /// The window procedure: brings a message, peeks the next, and takes the events of each call that is answered.
  fn procedure(&self, message: Message, next: Option<Message>) -> Result<ResultChange, Refusal> {
    let (token, result) = self.open(message)?;
    if let Some(token) = token {
      let peeked = self.peek(next);
      self.finish(token, peeked)?;
    }
    Ok(result)
  }

  fn open(&self, message: Message) -> Result<(Option<Token>, ResultChange), Refusal> {
    let (mut session, mut answers, state) = (self.session.borrow_mut(), self.answers.borrow_mut(), self.state.borrow());
    let keyboard = Keyboard { state: &state, block: self.block(), table: TABLE };
    let opened = session.open(&mut answers, keyboard, message)?;
    opened.events.for_each(|event| self.take(event));
    Ok((opened.token, opened.result))
  }

  /// A refused finish gives the token back: its message is still open, and all that arrived behind it waits. It is brought again with inputs
  /// in order; where they can't be put in order, the station has to stop.
  fn finish(&self, mut token: Token, peeked: Peeked) -> Result<(), Refusal> {
    for _ in 1..FINISH_TRIES {
      match self.try_finish(token, peeked) {
        Ok(()) => return Ok(()),
        Err(NotFinished { refusal, token: back }) => {
          println!("{refusal}: brought again");
          token = back;
        }
      }
    }
    self.try_finish(token, peeked).map_err(|no| no.refusal)
  }

  fn try_finish(&self, token: Token, peeked: Peeked) -> Result<(), NotFinished> {
    let (mut session, mut answers, state) = (self.session.borrow_mut(), self.answers.borrow_mut(), self.state.borrow());
    let keyboard = Keyboard { state: &state, block: self.block(), table: TABLE };
    session.finish(&mut answers, keyboard, token, peeked)?.for_each(|event| self.take(event));
    Ok(())
  }

  /// `PeekMessageW`: what was sent meanwhile reaches the procedure before it answers.
  fn peek(&self, next: Option<Message>) -> Peeked {
    loop {
      let sent = self.sent.borrow_mut().pop_front();
      match sent {
        Some(message) => drop(self.procedure(message, None).expect("a sent message is answered")),
        None => return next.into(),
      }
    }
  }

  /// A press that the focus brought was typed before: its text is no digit of the card.
  fn take(&self, event: Event) {
    println!("{event}");
    if let (ElementState::Pressed, false, Some(text)) = (event.state, event.synthetic, event.text) {
      self.typed.borrow_mut().push_str(&text);
    }
  }

  fn key(&self, key: u64, byte: u8) {
    self.state.borrow_mut()[key as usize] = byte;
  }

  fn digit(&self, digit: char) -> Result<(), Refusal> {
    let key = u64::from(digit);
    let scan = if digit == '0' { 0x0B } else { key - u64::from('0') + 1 };
    let character = Message::new(WM_CHAR, key, scan << 16 | 1);
    let release = Message::new(WM_KEYUP, key, 0xC000_0001 | scan << 16);
    self.key(key, 0x80);
    self.procedure(Message::new(WM_KEYDOWN, key, scan << 16 | 1), Some(character))?;
    self.procedure(character, Some(release))?;
    self.key(key, 0);
    self.procedure(release, None)?;
    Ok(())
  }
}

fn main() -> Result<(), Box<dyn std::error::Error>> {
  let host = Host::new();
  for (i, digit) in CARD.chars().enumerate() {
    match i {
      // while the next digit's press peeks, the focus goes and comes back with a key down
      11 => {
        host.key(0x34, 0x80);
        host.sent.borrow_mut().extend([Message::new(WM_KILLFOCUS, 0, 0), Message::new(WM_SETFOCUS, 0, 0)]);
      }
      12 => host.key(0x34, 0),
      // the press is opened with a block in order, and finished with one that is not, once
      15 => {
        let press = Message::new(WM_KEYDOWN, 0x11, 0x1D0001);
        let (token, _) = host.open(press)?;
        host.bad_reads.set(1);
        host.finish(token.expect("a press opens"), Peeked::Nothing)?;
      }
      _ => {}
    }
    host.digit(digit)?;
  }
  println!("card {}", host.typed.borrow());
  if *host.typed.borrow() != CARD || !host.session.borrow().is_fresh() {
    return Err("the card is not the one that was typed, or a trace of it stays".into());
  }
  Ok(())
}
