//! The C functions on slices, by their numbers: for callers that bring their own areas. None allocates, and each has an answer for every
//! input. `include/mahjonglarch.h` of the repository documents them.
pub use crate::ffi::{event, event_count, event_text, finish, fresh, interface, open};

/// The number of the interface that this crate was written for. Compare it with [`interface`] before the first call; [`crate::Session::new`] does.
pub const INTERFACE: u32 = 2;

/// 4,294,967,295. As a token: none was opened. As a count or a length: there is none.
pub const NONE: u32 = u32::MAX;

/// Numbers of an event.
pub const FIELDS: usize = 17;

/// The places of an event's numbers.
pub mod field {
  /// Physical key: its place in tao's `KeyCode`, 0 where it is unidentified; then the kind of its native code, and its value.
  pub const PHYSICAL_KEY: usize = 0;
  /// Logical key: its place in tao's `Key`; then its second and its third field.
  pub const LOGICAL_KEY: usize = 3;
  /// 0 standard, 1 left, 2 right, 3 numpad.
  pub const LOCATION: usize = 6;
  /// 0 pressed, 1 released.
  pub const STATE: usize = 7;
  /// 1 where bits 30 and 31 of the message's lParam differ, else 0: for a press, that the key was down before.
  pub const REPEAT: usize = 8;
  /// 1 where a focus change wrote the event.
  pub const SYNTHETIC: usize = 9;
  /// Key without modifiers: its place in tao's `Key`; then its second and its third field.
  pub const KEY_WITHOUT_MODIFIERS: usize = 10;
  /// Lengths of the four texts.
  pub const LENGTHS: usize = 13;
}

/// The texts of an event.
pub mod text {
  /// The logical key's character.
  pub const OF_LOGICAL_KEY: u32 = 0;
  /// The text.
  pub const OF_EVENT: u32 = 1;
  /// The text with all modifiers.
  pub const WITH_ALL_MODIFIERS: u32 = 2;
  /// The character of the key without modifiers.
  pub const OF_KEY_WITHOUT_MODIFIERS: u32 = 3;
}
