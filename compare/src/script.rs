//! Scripts: lists of calls, some with inputs that a question refuses.
use crate::{
  layouts::Layout,
  tables::{small, Table},
};
use kbtypes::Peeked;
use std::{fmt, sync::Arc};

pub type Message = Peeked;
pub type State = Arc<[u8; 256]>;

pub fn message(kind: u32, wparam: u64, lparam: u64) -> Message {
  Message { kind, wparam, lparam }
}

/// The token that a finish brings. It is named by what is open, so that a script stays one when calls are dropped.
#[derive(Clone, Copy, PartialEq, Eq, Debug)]
pub enum Token {
  /// That of the latest open message; 0 where none is open.
  Latest,
  /// The latest's, or 0, and this added.
  Off(u32),
  Number(u32),
}

#[derive(Clone, Copy, PartialEq, Eq, Debug)]
pub enum Body {
  Open(Message),
  Finish { token: Token, peeked: Option<Message> },
}

/// Bytes that are shown by their length.
#[derive(Clone, PartialEq, Eq)]
pub struct Bytes(pub Arc<[u8]>);

impl fmt::Debug for Bytes {
  fn fmt(&self, f: &mut fmt::Formatter<'_>) -> fmt::Result {
    write!(f, "{} bytes", self.0.len())
  }
}

/// What is odd about the inputs beside the message.
#[derive(Clone, PartialEq, Eq, Debug)]
pub enum Odd {
  /// The session area has this length.
  SessionLength(usize),
  AnswersLength(usize),
  StateLength(usize),
  /// These bytes in place of the block.
  Block(Bytes),
  /// The block is cut, or zeros are added.
  BlockLength(usize),
  /// The block's byte at this place, counted round, is changed by xor.
  BlockByte(usize, u8),
  /// The same three of the break table.
  Table(Bytes),
  TableLength(usize),
  TableByte(usize, u8),
  /// The session area's byte. The call is made on a copy, and the session goes on without it.
  SessionByte(usize, u8),
}

#[derive(Clone)]
pub struct Step {
  pub body: Body,
  pub layout: Arc<Layout>,
  pub table: Arc<Table>,
  pub state: State,
  pub odd: Vec<Odd>,
  /// The answer area is filled with this byte before the call.
  pub fill: Option<u8>,
}

impl Step {
  /// With the small table.
  pub fn new(layout: &Arc<Layout>, state: &State, body: Body) -> Self {
    Step { body, layout: layout.clone(), table: small(), state: state.clone(), odd: vec![], fill: None }
  }

  pub fn with(mut self, table: &Arc<Table>) -> Self {
    self.table = table.clone();
    self
  }

  pub fn odd(mut self, odd: Odd) -> Self {
    self.odd.push(odd);
    self
  }
}

pub fn state(bytes: &[(u8, u8)]) -> State {
  let mut state = [0; 256];
  bytes.iter().for_each(|(vk, b)| state[usize::from(*vk)] = *b);
  Arc::new(state)
}

/// The lParam of a press of this scan code; one on another page than 00 is extended.
pub fn lparam(scan: u64) -> u64 {
  (scan & 0xFF) << 16 | u64::from(scan > 0xFF) << 24 | 1
}

/// The same of a release.
pub fn up(scan: u64) -> u64 {
  0xC000_0000 | lparam(scan)
}

fn show_message(m: &Message) -> String {
  format!("{:X} wParam {:X} lParam {:X}", m.kind, m.wparam, m.lparam)
}

impl fmt::Debug for Step {
  fn fmt(&self, f: &mut fmt::Formatter<'_>) -> fmt::Result {
    match &self.body {
      Body::Open(m) => write!(f, "open {}", show_message(m))?,
      Body::Finish { token, peeked } => {
        write!(f, "finish {token:?}, ")?;
        match peeked {
          Some(m) => write!(f, "peeked {}", show_message(m))?,
          None => write!(f, "nothing peeked")?,
        }
      }
    }
    write!(f, "; layout {}, table {}", self.layout.name, self.table.name)?;
    let down: Vec<String> =
      self.state.iter().enumerate().filter(|(_, b)| **b != 0).map(|(i, b)| format!("{i:02X}:{b:02X}")).collect();
    if !down.is_empty() {
      write!(f, "; keys {}", down.join(" "))?;
    }
    for odd in &self.odd {
      write!(f, "; {odd:X?}")?;
    }
    if let Some(byte) = self.fill {
      write!(f, "; answer area filled with {byte:02X}")?;
    }
    Ok(())
  }
}
