//! A session, and the two calls.
use crate::{
  area::Area, message::Token, raw, refusal::answered, Answers, Events, Message, NotFinished, Peeked, Refusal,
  ResultChange, AREA_SIZE, KEY_STATE_SIZE,
};
use std::fmt;

/// The keyboard as it is at a call, and the break table: a press reads the keyboard at its finish, a character at its finish, a release at its
/// open.
#[derive(Clone, Copy)]
pub struct Keyboard<'a> {
  /// For each virtual key, bit 7 where it is down and bit 0 where a lock is on (`GetKeyboardState`).
  pub state: &'a [u8; KEY_STATE_SIZE],
  /// The layout block (docs/AREAS.md).
  pub block: &'a [u8],
  /// The break table (docs/AREAS.md), by which the pieces of a typed text are counted at the finish of its last character.
  /// `tables/unicode-15.0.breaks` of the repository is Unicode 15.0's.
  pub table: &'a [u8],
}

/// Says how long block and table are and not which keys are down.
impl fmt::Debug for Keyboard<'_> {
  fn fmt(&self, f: &mut fmt::Formatter<'_>) -> fmt::Result {
    let mut shown = f.debug_struct("Keyboard");
    shown.field("block", &self.block.len()).field("table", &self.table.len()).finish_non_exhaustive()
  }
}

/// What an open that is not refused answers.
#[derive(Debug)]
#[must_use = "it has the token that the message is finished with, and events that are handed out once"]
pub struct Opened<'a> {
  /// The token of the message that was opened; none where the message was answered whole, or ignored.
  pub token: Option<Token>,
  /// What becomes of the message result.
  pub result: ResultChange,
  /// The events that are handed out.
  pub events: Events<'a>,
}

/// All that lives between the messages of one keyboard, in one area, which is cleared when it is dropped. A token belongs to the session that
/// handed it out.
pub struct Session {
  area: Area,
}

impl Session {
  /// A fresh session.
  ///
  /// # Panics
  ///
  /// Where the library that is linked has another interface than the one that this crate was written for.
  pub fn new() -> Session {
    assert_eq!(raw::interface(), raw::INTERFACE, "the linked library has another interface");
    let mut area = Area::zeros();
    let number = raw::fresh(area.bytes_mut());
    assert_eq!(number, 0, "an area has its size");
    Session { area }
  }

  /// Takes a message. `answers` takes the events, which the answer lends. A refused call changes neither area: the message took no part in the
  /// session and is not processed. [`Refusal`] says what to do then.
  pub fn open<'a>(
    &mut self,
    answers: &'a mut Answers,
    keyboard: Keyboard<'_>,
    message: Message,
  ) -> Result<Opened<'a>, Refusal> {
    let Message { kind, wparam, lparam } = message;
    let (mut token, mut result) = (raw::NONE, 0);
    answered(raw::open(
      self.area.bytes_mut(),
      answers.area.bytes_mut(),
      keyboard.state,
      keyboard.block,
      keyboard.table,
      kind,
      wparam,
      lparam,
      &mut token,
      &mut result,
    ))?;
    Ok(Opened {
      token: (token != raw::NONE).then(|| Token::new(token)),
      result: ResultChange::from_number(result),
      events: answers.events(),
    })
  }

  /// Finishes the latest open message with what was peeked; a WM_QUIT counts as nothing. `answers` takes the events, which are lent. A refused call changes neither area:
  /// the message is still open, all that arrived behind it waits, and the token comes back. The latest one, refused with 1 to 3 or 11 and
  /// brought again with inputs in order, is answered, and everything comes out in order.
  pub fn finish<'a>(
    &mut self,
    answers: &'a mut Answers,
    keyboard: Keyboard<'_>,
    token: Token,
    peeked: Peeked,
  ) -> Result<Events<'a>, NotFinished> {
    let (present, Message { kind, wparam, lparam }) = match peeked {
      Peeked::Nothing => (0, Message::new(0, 0, 0)),
      Peeked::Message(message) => (1, message),
    };
    let number = raw::finish(
      self.area.bytes_mut(),
      answers.area.bytes_mut(),
      keyboard.state,
      keyboard.block,
      keyboard.table,
      token.number(),
      present,
      kind,
      wparam,
      lparam,
    );
    match answered(number) {
      Ok(()) => Ok(answers.events()),
      Err(refusal) => Err(NotFinished { refusal, token }),
    }
  }

  /// Whether the area is a fresh one in every byte: nothing is open, no press is held, and no trace of what was typed is left.
  pub fn is_fresh(&self) -> bool {
    self.area.bytes().iter().all(|byte| *byte == 0)
  }

  /// The area's bytes (docs/AREAS.md).
  pub fn as_bytes(&self) -> &[u8; AREA_SIZE] {
    self.area.bytes()
  }
}

impl Default for Session {
  fn default() -> Session {
    Session::new()
  }
}

/// Says nothing of what was typed.
impl fmt::Debug for Session {
  fn fmt(&self, f: &mut fmt::Formatter<'_>) -> fmt::Result {
    f.debug_struct("Session").field("fresh", &self.is_fresh()).finish_non_exhaustive()
  }
}
