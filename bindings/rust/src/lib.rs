//! Windows key messages to key events: a safe face of Mahjonglarch, the keyboard part of tao 0.37.2 written again in Rattle and proved.
//!
//! A [`Session`] holds all that lives between messages. [`Session::open`] takes a message and [`Session::finish`] what was peeked behind it;
//! each hands out the events that are complete by then, every event once, in the order in which their messages arrived. While a message is
//! open further ones may be opened (Windows re-enters the window procedure while it peeks); the latest is finished first.
//!
//! Windows stays outside: messages, the 256 bytes of the key state, the layout block and the break table (docs/AREAS.md of the repository lays
//! them out) are brought by the host, so all of this runs anywhere on x86-64.
//!
//! ```
//! use mahjonglarch::{Answers, Keyboard, Message, Peeked, ResultChange, Session, WM_CHAR, WM_KEYDOWN, WM_KEYUP};
//!
//! let block = include_bytes!("../../../crates/station/data/us.block");
//! let table = include_bytes!("../../../tables/unicode-15.0.breaks");
//! let mut state = [0; 256];
//! state[0x31] = 0x80; // the key 1 is down
//! let keyboard = Keyboard { state: &state, block, table };
//! let (mut session, mut answers) = (Session::new(), Answers::new());
//!
//! // The press comes first; the character behind it is what it types.
//! let press = session.open(&mut answers, keyboard, Message::new(WM_KEYDOWN, 0x31, 0x20001))?;
//! assert_eq!(press.result, ResultChange::Zero);
//! let (token, character) = (press.token.unwrap(), Message::new(WM_CHAR, 0x31, 0x20001));
//! let none = session.finish(&mut answers, keyboard, token, Peeked::Message(character))?;
//! assert_eq!(none.len(), 0);
//!
//! let token = session.open(&mut answers, keyboard, character)?.token.unwrap();
//! let release = Message::new(WM_KEYUP, 0x31, 0xC0020001);
//! let events = session.finish(&mut answers, keyboard, token, Peeked::Message(release))?;
//! let texts: Vec<_> = events.map(|e| e.text.unwrap()).collect();
//! assert_eq!(texts, ["1"]);
//! assert!(session.is_fresh());
//! # Ok::<(), Box<dyn std::error::Error>>(())
//! ```
//!
//! The host's duties. Nothing here can see whether they are done, and a digit that is not brought, or whose event is not taken, is lost:
//!
//! - heed both answers, and bring a refused finish again with the token that it gives back ([`Refusal`] says what to do at each);
//! - take the events of each answered call before the answer area is lent again (the borrow sees to that), and of a refused call none;
//! - read the key state anew for each half of a message, for [`WM_SETFOCUS`] what `GetAsyncKeyState` says (bit 7) with the locks of `GetKeyState`
//!   (bit 0), and bring the block of the layout in force and the break table, which is the same for all layouts;
//! - finish the latest message first, and hold no borrow of session or answers across the peek, which can enter the window procedure again
//!   (`examples/shift.rs` has one that does not);
//! - take no text of a synthetic press: it was typed before, and it can come out before the typed one;
//! - do with the message result what [`Opened::result`] says, and call `TranslateMessage` in the message loop.
//!
//! Memory: a [`Session`] and an [`Answers`] have one allocation each, made once, and no call allocates. Both are overwritten with zeros when
//! they are dropped. An [`Event`] is the host's own copy, and what a call leaves on the machine's stack is not cleared.
//!
//! [`raw`] has the C functions themselves on slices, for callers that bring their own areas.
#![deny(unsafe_op_in_unsafe_fn, unsafe_code)]
#![warn(missing_docs)]

mod area;
mod event;
#[allow(unsafe_code)]
mod ffi;
mod key;
mod message;
mod names;
pub mod raw;
mod refusal;
mod session;

pub use event::{Answers, ElementState, Event, Events, KeyLocation, Text};
pub use key::{Key, KeyCode, NamedKey, NativeKeyCode, PhysicalKey};
pub use message::*;
pub use refusal::{NotFinished, Refusal};
pub use session::{Keyboard, Opened, Session};

/// Bytes of a session area, and of an answer area.
pub const AREA_SIZE: usize = 65_536;
/// Bytes of a key state.
pub const KEY_STATE_SIZE: usize = 256;
/// Bytes of a layout block, at most.
pub const BLOCK_MOST: usize = 65_536;
/// Bytes of a break table, at most.
pub const TABLE_MOST: usize = 65_536;
/// Messages open together.
pub const OPEN_MOST: usize = 8;
/// Entries of a session's queue, and so events of one call.
pub const EVENTS_MOST: usize = 256;
/// Tokens handed out since the queue was empty.
pub const TOKENS_MOST: usize = 4_096;
/// UTF-16 units that one press carries.
pub const UNITS_MOST: usize = 16;
/// Bytes of a text of an event.
pub const TEXT_MOST: usize = 48;
