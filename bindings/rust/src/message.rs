//! What a host brings, and what it is told about the message itself.

/// The window gained the keyboard: a press for each key that is down.
pub const WM_SETFOCUS: u32 = 0x007;
/// The window lost the keyboard: a release for each key that is down.
pub const WM_KILLFOCUS: u32 = 0x008;
/// A press.
pub const WM_KEYDOWN: u32 = 0x100;
/// A release.
pub const WM_KEYUP: u32 = 0x101;
/// A character of the held press.
pub const WM_CHAR: u32 = 0x102;
/// A dead character: completes the held press.
pub const WM_DEADCHAR: u32 = 0x103;
/// A press with Alt, or without the focus.
pub const WM_SYSKEYDOWN: u32 = 0x104;
/// A release with Alt, or without the focus.
pub const WM_SYSKEYUP: u32 = 0x105;
/// As [`WM_CHAR`], with Alt.
pub const WM_SYSCHAR: u32 = 0x106;
/// As [`WM_DEADCHAR`], with Alt.
pub const WM_SYSDEADCHAR: u32 = 0x107;

/// A Windows message. Kinds other than the constants of this crate are ignored.
#[derive(Clone, Copy, PartialEq, Eq, Hash, Debug)]
pub struct Message {
  /// Its kind, 32 bits.
  pub kind: u32,
  /// All 64 bits of wParam.
  pub wparam: u64,
  /// All 64 bits of lParam.
  pub lparam: u64,
}

impl Message {
  /// A message of these three.
  pub const fn new(kind: u32, wparam: u64, lparam: u64) -> Message {
    Message { kind, wparam, lparam }
  }
}

/// What a peek for the next keyboard message showed (`PeekMessageW` from `WM_KEYFIRST` to `WM_KEYLAST`, `PM_NOREMOVE`).
#[derive(Clone, Copy, PartialEq, Eq, Hash, Debug)]
pub enum Peeked {
  /// No message.
  Nothing,
  /// A message, which stays in its queue.
  Message(Message),
}

impl From<Option<Message>> for Peeked {
  fn from(message: Option<Message>) -> Peeked {
    message.map_or(Peeked::Nothing, Peeked::Message)
  }
}

/// An open message's token. Finishing the message takes it, and a token can't be copied: numbers start at 0 again when the queue empties, so a
/// token used twice could finish another message.
#[derive(PartialEq, Eq, Hash, Debug)]
#[must_use = "the message stays open until it is finished with its token"]
pub struct Token(u32);

impl Token {
  pub(crate) fn new(number: u32) -> Token {
    Token(number)
  }

  /// Its number, below 4,096.
  pub fn number(&self) -> u32 {
    self.0
  }
}

/// What becomes of the message result, which the window procedure returns.
#[derive(Clone, Copy, PartialEq, Eq, Hash, Debug)]
pub enum ResultChange {
  /// It stays as the host had it.
  Kept,
  /// What the default procedure returns, which is to be called.
  DefaultProcedure,
  /// 0.
  Zero,
}

impl ResultChange {
  pub(crate) fn from_number(number: u32) -> ResultChange {
    match number {
      0 => ResultChange::Kept,
      1 => ResultChange::DefaultProcedure,
      2 => ResultChange::Zero,
      _ => unreachable!("no change of the message result has the number {number}"),
    }
  }
}
