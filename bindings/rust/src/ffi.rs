//! The unsafe code of this crate: the C functions, and the clearing of memory.
//!
//! Each C function is proved for every input, so all that a caller owes is what slices are in Rust anyway: pointers that are aligned, not
//! null and good for their lengths, and no overlap of what is written with anything else.
use std::sync::atomic::{compiler_fence, Ordering};

mod c {
  extern "C" {
    pub fn mahjonglarch_interface() -> u32;
    pub fn mahjonglarch_fresh(area: *mut u8, area_len: usize) -> u32;
    pub fn mahjonglarch_open(
      session: *mut u8,
      session_len: usize,
      answers: *mut u8,
      answers_len: usize,
      state: *const u8,
      state_len: usize,
      block: *const u8,
      block_len: usize,
      table: *const u8,
      table_len: usize,
      kind: u32,
      wparam: u64,
      lparam: u64,
      token: *mut u32,
      result: *mut u32,
    ) -> u32;
    pub fn mahjonglarch_finish(
      session: *mut u8,
      session_len: usize,
      answers: *mut u8,
      answers_len: usize,
      state: *const u8,
      state_len: usize,
      block: *const u8,
      block_len: usize,
      table: *const u8,
      table_len: usize,
      token: u32,
      peeked: u32,
      kind: u32,
      wparam: u64,
      lparam: u64,
    ) -> u32;
    pub fn mahjonglarch_event_count(answers: *const u8, answers_len: usize) -> u32;
    pub fn mahjonglarch_event(
      answers: *const u8,
      answers_len: usize,
      i: u32,
      fields: *mut u32,
      fields_len: usize,
    ) -> u32;
    pub fn mahjonglarch_event_text(
      answers: *const u8,
      answers_len: usize,
      i: u32,
      which: u32,
      text: *mut u8,
      text_len: usize,
    ) -> u32;
  }
}

/// The number of the library's interface, which is to be [`INTERFACE`](super::raw::INTERFACE).
pub fn interface() -> u32 {
  unsafe { c::mahjonglarch_interface() }
}

/// Makes the area that of a fresh session: 0. An area of another size is left as it is: 1.
pub fn fresh(area: &mut [u8]) -> u32 {
  // SAFETY: a slice's pointer and length.
  unsafe { c::mahjonglarch_fresh(area.as_mut_ptr(), area.len()) }
}

/// Takes a message: 0, or the number of the question that refused it. `token` becomes that of the message that was opened, or [`NONE`] where
/// none was; `result` what becomes of the message result: 0 kept, 1 the default procedure's, 2 value 0.
///
/// [`NONE`]: crate::raw::NONE
#[allow(clippy::too_many_arguments)]
pub fn open(
  session: &mut [u8],
  answers: &mut [u8],
  state: &[u8],
  block: &[u8],
  table: &[u8],
  kind: u32,
  wparam: u64,
  lparam: u64,
  token: &mut u32,
  result: &mut u32,
) -> u32 {
  // SAFETY: slices' pointers and lengths, and references.
  unsafe {
    c::mahjonglarch_open(
      session.as_mut_ptr(),
      session.len(),
      answers.as_mut_ptr(),
      answers.len(),
      state.as_ptr(),
      state.len(),
      block.as_ptr(),
      block.len(),
      table.as_ptr(),
      table.len(),
      kind,
      wparam,
      lparam,
      token,
      result,
    )
  }
}

/// Finishes the latest open message, which has the token, with the peeked message, or with none where `peeked` is 0: 0, or the number of the
/// question that refused it.
#[allow(clippy::too_many_arguments)]
pub fn finish(
  session: &mut [u8],
  answers: &mut [u8],
  state: &[u8],
  block: &[u8],
  table: &[u8],
  token: u32,
  peeked: u32,
  kind: u32,
  wparam: u64,
  lparam: u64,
) -> u32 {
  // SAFETY: slices' pointers and lengths.
  unsafe {
    c::mahjonglarch_finish(
      session.as_mut_ptr(),
      session.len(),
      answers.as_mut_ptr(),
      answers.len(),
      state.as_ptr(),
      state.len(),
      block.as_ptr(),
      block.len(),
      table.as_ptr(),
      table.len(),
      token,
      peeked,
      kind,
      wparam,
      lparam,
    )
  }
}

/// How many events an answer area has; [`NONE`] where the bytes are no answer area's: another size, or a number above 256.
///
/// [`NONE`]: crate::raw::NONE
pub fn event_count(answers: &[u8]) -> u32 {
  // SAFETY: a slice's pointer and length.
  unsafe { c::mahjonglarch_event_count(answers.as_ptr(), answers.len()) }
}

/// Writes event i as 17 numbers: 0. Where there is no such event, its bytes are not an event's, or `fields` has another length than 17: 1, and
/// the fields stay as they are.
pub fn event(answers: &[u8], i: u32, fields: &mut [u32]) -> u32 {
  // SAFETY: slices' pointers and lengths.
  unsafe { c::mahjonglarch_event(answers.as_ptr(), answers.len(), i, fields.as_mut_ptr(), fields.len()) }
}

/// Copies a text of event i to the front of `text`: its length, 0 where there is none. 0 is the logical key's character, 1 the text, 2 the text
/// with all modifiers, 3 the character of the key without modifiers. Where there is no such event or text, its bytes are not an event's, or
/// `text` has less than 48 bytes: [`NONE`], and the bytes stay as they are.
///
/// [`NONE`]: crate::raw::NONE
pub fn event_text(answers: &[u8], i: u32, which: u32, text: &mut [u8]) -> u32 {
  // SAFETY: slices' pointers and lengths.
  unsafe { c::mahjonglarch_event_text(answers.as_ptr(), answers.len(), i, which, text.as_mut_ptr(), text.len()) }
}

/// Overwrites bytes with zeros, also where nothing reads them any more.
pub(crate) fn clear(bytes: &mut [u8]) {
  for byte in bytes {
    // SAFETY: a reference to a byte. Volatile, so that the write is not left out before the memory is given back.
    unsafe { std::ptr::write_volatile(byte, 0) }
  }
  compiler_fence(Ordering::SeqCst);
}
