//! Why a call is refused.
use crate::Token;
use std::{error::Error, fmt};

/// The first question that a call failed. A refused call changes no byte of either area.
///
/// A refused open took no part in the session: its message is not processed. A refused finish leaves its message open; with the refusals 1 to 3
/// and 11 the same token is answered once the inputs are in order. Questions 1 to 3, 11 and 4, in this order, are put to every call.
#[derive(Clone, Copy, PartialEq, Eq, Hash, Debug)]
#[non_exhaustive]
#[repr(u32)]
pub enum Refusal {
  /// Are both areas exactly 65,536 bytes? Bring the call again with areas of that size.
  AreaSize = 1,
  /// Are there 256 key-state bytes? Bring the call again with as many.
  KeyStateSize = 2,
  /// Is the block at most 65,536 bytes and laid out as docs/AREAS.md says? Read the layout anew and bring the call again; stop the station if the
  /// block stays so, since everything behind an unfinished message waits.
  Block = 3,
  /// Is the session area that of a session? Something else wrote into it: stop, begin with a fresh session, reject the card.
  Session = 4,
  /// For a dead character: is a press held? Nothing typed is lost; go on.
  NothingHeld = 5,
  /// To open: are fewer than 8 open? Bring the message again once one has been finished, or reject the card: its digit is lost.
  TooManyOpen = 6,
  /// Do the new entries fit within 256? An early message was never finished: finish the open ones, the latest first, and bring the message again.
  QueueFull = 7,
  /// Do the tokens since the queue was empty stay within 4,096? As [`Refusal::QueueFull`].
  TokensUsed = 8,
  /// Do the held units stay within 16? The character is not added to its press: reject the card.
  TooManyUnits = 9,
  /// To finish: is the token that of the latest open message? Finish the later messages first.
  NotLatest = 10,
  /// Is the break table at most 65,536 bytes and laid out as docs/AREAS.md says? Asked behind [`Refusal::Block`]. Read the table anew and bring
  /// the call again; stop the station if the table stays so, since everything behind an unfinished message waits.
  Table = 11,
}

impl Refusal {
  const ALL: [Refusal; 11] = [
    Refusal::AreaSize,
    Refusal::KeyStateSize,
    Refusal::Block,
    Refusal::Session,
    Refusal::NothingHeld,
    Refusal::TooManyOpen,
    Refusal::QueueFull,
    Refusal::TokensUsed,
    Refusal::TooManyUnits,
    Refusal::NotLatest,
    Refusal::Table,
  ];

  /// The number of the question, 1 to 11.
  pub fn number(self) -> u32 {
    self as u32
  }

  /// The refusal of a number; none for 0, which is an answered call's, and for numbers that no question has.
  pub fn from_number(number: u32) -> Option<Refusal> {
    Refusal::ALL.into_iter().find(|r| r.number() == number)
  }
}

impl fmt::Display for Refusal {
  fn fmt(&self, f: &mut fmt::Formatter<'_>) -> fmt::Result {
    let why = match self {
      Refusal::AreaSize => "an area is not of 65,536 bytes",
      Refusal::KeyStateSize => "the key state is not of 256 bytes",
      Refusal::Block => "the layout block is not in order",
      Refusal::Session => "the session area is not that of a session",
      Refusal::NothingHeld => "a dead character, and no press is held",
      Refusal::TooManyOpen => "eight messages are open",
      Refusal::QueueFull => "more than 256 entries",
      Refusal::TokensUsed => "more than 4,096 tokens since the queue was empty",
      Refusal::TooManyUnits => "more than sixteen units for a press",
      Refusal::NotLatest => "not the token of the latest open message",
      Refusal::Table => "the break table is not in order",
    };
    write!(f, "refused {}: {why}", self.number())
  }
}

impl Error for Refusal {}

/// What a number answered by a call says.
pub(crate) fn answered(number: u32) -> Result<(), Refusal> {
  match Refusal::from_number(number) {
    Some(refusal) => Err(refusal),
    None if number == 0 => Ok(()),
    None => unreachable!("no question has the number {number}"),
  }
}

/// A finish that was refused gives its token back: the message is still open.
#[derive(PartialEq, Eq, Debug)]
pub struct NotFinished {
  /// Why.
  pub refusal: Refusal,
  /// The token of the message that is still to be finished.
  pub token: Token,
}

impl fmt::Display for NotFinished {
  fn fmt(&self, f: &mut fmt::Formatter<'_>) -> fmt::Result {
    write!(f, "token {}: {}", self.token.number(), self.refusal)
  }
}

impl Error for NotFinished {
  fn source(&self) -> Option<&(dyn Error + 'static)> {
    Some(&self.refusal)
  }
}
