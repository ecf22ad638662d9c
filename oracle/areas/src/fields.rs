//! Fields that records of the session and answer areas share: numbers, flags, texts and keys.
use crate::block::{key_at, key_fields};
use kbtypes::{Key, Location};

pub const AREA: usize = 65_536;
/// The most bytes of a typed text, and of a layout's.
pub(crate) const TYPED: usize = 48;
pub(crate) const SHORT: usize = crate::block::TEXT_MOST;

// ---- writing

/// A text's length and bytes, in `room` bytes and the one before them.
pub(crate) fn put_text(out: &mut [u8], room: usize, t: Option<&str>) {
  let t = t.unwrap_or("").as_bytes();
  assert!(t.len() <= room, "a text is too long");
  out[0] = t.len() as u8;
  out[1..=t.len()].copy_from_slice(t);
}

pub(crate) fn put_key(out: &mut [u8], room: usize, key: &Key) {
  let (number, second, third, t) = key_fields(key);
  out[..2].copy_from_slice(&number.to_le_bytes());
  out[2] = second;
  out[3..7].copy_from_slice(&third.to_le_bytes());
  put_text(&mut out[7..], room, Some(t));
}

// ---- reading; zeros behind a text are not asked for here

pub(crate) fn word(bytes: &[u8], at: usize) -> u16 {
  u16::from_le_bytes([bytes[at], bytes[at + 1]])
}

pub(crate) fn long(bytes: &[u8], at: usize) -> u32 {
  u32::from(word(bytes, at)) | u32::from(word(bytes, at + 2)) << 16
}

pub(crate) fn flag(byte: u8) -> Option<bool> {
  match byte {
    0 => Some(false),
    1 => Some(true),
    _ => None,
  }
}

pub(crate) fn location(byte: u8) -> Option<Location> {
  [Location::Standard, Location::Left, Location::Right, Location::Numpad].get(usize::from(byte)).copied()
}

/// The bytes of a text of at most `room`, whose length stands at `at`.
pub(crate) fn text_bytes(bytes: &[u8], at: usize, room: usize) -> Option<&[u8]> {
  let length = usize::from(bytes[at]);
  (length <= room).then(|| &bytes[at + 1..=at + length])
}

/// A text that may be none: no text has length 0.
pub(crate) fn text(bytes: &[u8], at: usize) -> Option<Option<&str>> {
  let text = std::str::from_utf8(text_bytes(bytes, at, TYPED)?).ok()?;
  Some((!text.is_empty()).then_some(text))
}

pub(crate) fn key(bytes: &[u8], at: usize, room: usize) -> Option<Key> {
  let text = text_bytes(bytes, at + 7, room)?;
  key_at(word(bytes, at), bytes[at + 2], long(bytes, at + 3), text, room).ok()
}
