//! The session area: its one encoding, and the check (question 4) with the reading.
use crate::{
  event::{self, EVENT},
  fields::{flag, key, location, put_key, word, SHORT},
};
use kbtypes::{Event, Key, Location};

pub use crate::fields::AREA;

/// Limits of a session.
pub const OPEN: usize = 8;
pub const ENTRIES: usize = 256;
pub const TOKENS: u16 = 4096;
pub const UNITS: usize = 16;

const INFO: usize = 68;
const HELD: usize = 104;
const HELD_AT: usize = 3;
const COUNT_AT: usize = HELD_AT + HELD;
const ENTRY: usize = 3 + EVENT;
const ENTRIES_AT: usize = COUNT_AT + 2;

#[derive(Clone, PartialEq, Eq, Debug)]
pub struct Session {
  /// Tokens handed out since the queue was empty.
  pub handed: u16,
  pub held: Option<Held>,
  pub entries: Vec<Entry>,
}

#[derive(Clone, PartialEq, Eq, Debug)]
pub struct Entry {
  pub token: u16,
  pub state: EntryState,
}

/// All but the last are open messages.
#[derive(Clone, PartialEq, Eq, Debug)]
pub enum EntryState {
  /// What its finish will read.
  Press {
    vkey: u16,
    scancode: u8,
    extended: bool,
    repeat: bool,
  },
  Release(Info),
  Character,
  Complete(Event),
}

/// What the event of a press or a release is made of.
#[derive(Clone, PartialEq, Eq, Debug)]
pub struct Info {
  pub scancode: u16,
  pub repeat: bool,
  pub location: Location,
  pub logical_key: Key,
  pub key_without_modifiers: Key,
}

#[derive(Clone, PartialEq, Eq, Debug)]
pub struct Held {
  pub info: Info,
  pub vkey: u16,
  /// A typed text may become the logical key.
  pub mark: bool,
  pub units: Vec<u16>,
}

impl Entry {
  pub fn is_open(&self) -> bool {
    !matches!(self.state, EntryState::Complete(_))
  }
}

impl Session {
  /// Nothing open, no entry, no held press, 0 tokens handed out.
  pub fn fresh() -> Self {
    Session { handed: 0, held: None, entries: Vec::new() }
  }

  /// How many messages are open.
  pub fn open(&self) -> usize {
    self.entries.iter().filter(|e| e.is_open()).count()
  }

  /// The token of the latest open message.
  pub fn latest(&self) -> Option<u16> {
    self.entries.iter().rfind(|e| e.is_open()).map(|e| e.token)
  }

  /// Question 4's sentences on order and limits.
  fn holds(&self) -> bool {
    let rising = self.entries.windows(2).all(|w| w[0].token < w[1].token);
    let below = self.entries.iter().all(|e| e.token < self.handed);
    let first_open = self.entries.first().is_none_or(Entry::is_open);
    let empty_when_closed = self.open() > 0 || self.entries.is_empty() && self.handed == 0;
    let limits = self.open() <= OPEN
      && self.entries.len() <= ENTRIES
      && self.handed <= TOKENS
      && self.held.as_ref().is_none_or(|h| h.units.len() <= UNITS);
    rising && below && first_open && empty_when_closed && limits
  }
}

// ---- writing

fn put_word(out: &mut [u8], n: u16) {
  out[..2].copy_from_slice(&n.to_le_bytes());
}

fn put_info(out: &mut [u8], info: &Info) {
  put_word(out, info.scancode);
  out[2] = info.repeat.into();
  out[3] = info.location as u8;
  put_key(&mut out[4..], SHORT, &info.logical_key);
  put_key(&mut out[36..], SHORT, &info.key_without_modifiers);
}

fn put_held(out: &mut [u8], held: &Held) {
  put_info(out, &held.info);
  put_word(&mut out[INFO..], held.vkey);
  out[70] = held.mark.into();
  out[71] = held.units.len() as u8;
  held.units.iter().zip(out[72..HELD].chunks_exact_mut(2)).for_each(|(unit, at)| put_word(at, *unit));
}

fn put_entry(out: &mut [u8], entry: &Entry) {
  put_word(out, entry.token);
  match &entry.state {
    EntryState::Press { vkey, scancode, extended, repeat } => {
      put_word(&mut out[4..], *vkey);
      out[6..9].copy_from_slice(&[*scancode, (*extended).into(), (*repeat).into()]);
    }
    EntryState::Release(info) => {
      out[3] = 1;
      put_info(&mut out[5..], info);
    }
    EntryState::Character => out[3..5].copy_from_slice(&[1, 1]),
    EntryState::Complete(e) => {
      out[2] = 1;
      out[3..].copy_from_slice(&event::encode(e));
    }
  }
}

/// Writes what may break question 4's sentences.
fn write(session: &Session) -> Vec<u8> {
  let mut out = vec![0; AREA];
  put_word(&mut out, session.handed);
  if let Some(held) = &session.held {
    out[2] = 1;
    put_held(&mut out[HELD_AT..COUNT_AT], held);
  }
  put_word(&mut out[COUNT_AT..], session.entries.len() as u16);
  let places = out[ENTRIES_AT..].chunks_exact_mut(ENTRY);
  session.entries.iter().zip(places).for_each(|(entry, at)| put_entry(at, entry));
  out
}

/// The area of this session.
pub fn encode(session: &Session) -> Vec<u8> {
  assert!(session.holds(), "no session");
  write(session)
}

// ---- reading

fn info(bytes: &[u8]) -> Option<Info> {
  Some(Info {
    scancode: word(bytes, 0),
    repeat: flag(bytes[2])?,
    location: location(bytes[3])?,
    logical_key: key(bytes, 4, SHORT)?,
    key_without_modifiers: key(bytes, 36, SHORT)?,
  })
}

fn held(bytes: &[u8]) -> Option<Held> {
  let units = usize::from(bytes[71]);
  if units > UNITS {
    return None;
  }
  Some(Held {
    info: info(bytes)?,
    vkey: word(bytes, INFO),
    mark: flag(bytes[70])?,
    units: (0..units).map(|i| word(bytes, 72 + 2 * i)).collect(),
  })
}

fn entry(bytes: &[u8]) -> Option<Entry> {
  let state = match (bytes[2], bytes[3], bytes[4]) {
    (0, 0, _) => {
      EntryState::Press { vkey: word(bytes, 4), scancode: bytes[6], extended: flag(bytes[7])?, repeat: flag(bytes[8])? }
    }
    (0, 1, 0) => EntryState::Release(info(&bytes[5..])?),
    (0, 1, 1) => EntryState::Character,
    (1, _, _) => EntryState::Complete(event::decode(&bytes[3..])?),
    _ => return None,
  };
  Some(Entry { token: word(bytes, 0), state })
}

/// Question 4: the session whose area these bytes are. Zeros behind everything are asked for by writing it again.
pub fn decode(area: &[u8]) -> Option<Session> {
  if area.len() != AREA || usize::from(word(area, COUNT_AT)) > ENTRIES {
    return None;
  }
  let held = if flag(area[2])? { Some(held(&area[HELD_AT..COUNT_AT])?) } else { None };
  let places = area[ENTRIES_AT..].chunks_exact(ENTRY).take(word(area, COUNT_AT).into());
  let entries = places.map(entry).collect::<Option<Vec<Entry>>>()?;
  let session = Session { handed: word(area, 0), held, entries };
  (session.holds() && write(&session) == area).then_some(session)
}

#[cfg(test)]
mod tests;
