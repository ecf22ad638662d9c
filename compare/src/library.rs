//! The proved library, through the C functions as `mahjonglarch::raw` has them on slices.
use mahjonglarch::raw;

pub use mahjonglarch::raw::{event, event_count, event_text, fresh, FIELDS, NONE};
pub use mahjonglarch::{AREA_SIZE as AREA, TEXT_MOST};

/// What a call is lent.
pub struct Lent<'a> {
  pub session: &'a mut [u8],
  pub answers: &'a mut [u8],
  pub state: &'a [u8],
  pub block: &'a [u8],
  pub table: &'a [u8],
}

/// What a call answered: 0 or the refusal's number; of an open what it wrote as token and as what becomes of `result`.
#[derive(Clone, Copy, PartialEq, Eq, Debug)]
pub struct Said {
  pub refused: u32,
  pub token: Option<u32>,
  pub result: Option<u32>,
}

pub fn open(l: Lent<'_>, kind: u32, wparam: u64, lparam: u64) -> Said {
  // Numbers that no call writes, so that a forgotten one is seen.
  let (mut token, mut result) = (0xDEAD_BEEF, 0xDEAD_BEEF);
  let refused =
    raw::open(l.session, l.answers, l.state, l.block, l.table, kind, wparam, lparam, &mut token, &mut result);
  Said { refused, token: Some(token), result: Some(result) }
}

/// `peeked`: kind, wParam, lParam.
pub fn finish(l: Lent<'_>, token: u32, peeked: Option<(u32, u64, u64)>) -> Said {
  // With nothing peeked the message's numbers are not to be read: they would be more characters, and AltGr.
  let (kind, wparam, lparam) = peeked.unwrap_or((0x102, 0x31, 0x138_0001));
  let peeked = peeked.is_some().into();
  let refused = raw::finish(l.session, l.answers, l.state, l.block, l.table, token, peeked, kind, wparam, lparam);
  Said { refused, token: None, result: None }
}
