//! The eleven questions of docs/SCOPE.md, 6, read plainly: the number of the first one that is answered with no.
use crate::{
  block, break_table,
  fields::AREA,
  session::{self, Session, ENTRIES, OPEN, TOKENS, UNITS},
};
use kbtypes::LayoutSpec;

/// What a message asks of a session.
#[derive(Clone, Copy, PartialEq, Eq, Debug)]
pub enum Sort {
  /// 100, 101, 104, 105; and 102, 106 with a held press, which adds so many units.
  Opens { units: usize },
  /// 103, 107.
  DeadCharacter,
  /// 7, 8.
  Focus,
  /// 104 with F4, 102 or 106 with no held press, an unhandled kind.
  Ignored,
}

/// A surrogate (the whole wParam) adds one unit, a scalar value (the low 32 bits) its one or two, any other code two.
pub fn units_of(wparam: u64) -> usize {
  match char::from_u32(wparam as u32) {
    _ if (0xD800..=0xDFFF).contains(&wparam) => 1,
    Some(c) => c.len_utf16(),
    None => 2,
  }
}

pub fn sort(session: &Session, kind: u32, wparam: u64) -> Sort {
  match kind {
    0x104 if wparam == 0x73 => Sort::Ignored,
    0x100 | 0x101 | 0x104 | 0x105 => Sort::Opens { units: 0 },
    0x102 | 0x106 if session.held.is_some() => Sort::Opens { units: units_of(wparam) },
    0x103 | 0x107 => Sort::DeadCharacter,
    0x7 | 0x8 => Sort::Focus,
    _ => Sort::Ignored,
  }
}

/// How many events a focus message has: one for each byte with bit 7, but for VK_SHIFT, VK_CONTROL and VK_MENU and for
/// keys without scan code.
pub fn focus_events(layout: &LayoutSpec, state: &[u8; 256]) -> usize {
  let has_event = |vk: &usize| {
    let skipped = matches!(vk, 0x10..=0x12);
    state[*vk] & 0x80 != 0 && !skipped && layout.scan_of_vk[*vk] != 0
  };
  (0..256).filter(has_event).count()
}

/// Questions 5 to 9.
pub fn open_refused_in(
  session: &Session,
  layout: &LayoutSpec,
  state: &[u8; 256],
  kind: u32,
  wparam: u64,
  _lparam: u64,
) -> Option<u32> {
  let sort = sort(session, kind, wparam);
  // Each new entry takes a token.
  let (new_entries, new_units) = match sort {
    Sort::Opens { units } => (1, units),
    Sort::DeadCharacter => (1, 0),
    Sort::Focus if session.entries.is_empty() => (0, 0),
    Sort::Focus => (focus_events(layout, state), 0),
    Sort::Ignored => (0, 0),
  };
  let opens = matches!(sort, Sort::Opens { .. });
  let held_units = session.held.as_ref().map_or(0, |h| h.units.len());
  if sort == Sort::DeadCharacter && session.held.is_none() {
    Some(5)
  } else if opens && session.open() >= OPEN {
    Some(6)
  } else if session.entries.len() + new_entries > ENTRIES {
    Some(7)
  } else if usize::from(session.handed) + new_entries > usize::from(TOKENS) {
    Some(8)
  } else if held_units + new_units > UNITS {
    Some(9)
  } else {
    None
  }
}

/// Question 10.
pub fn finish_refused_in(session: &Session, token: u32) -> Option<u32> {
  (session.latest().map(u32::from) != Some(token)).then_some(10)
}

/// Questions 1, 2, 3, 11 and 4, which are put to every call in this order: what they are about, or the number.
fn inputs<'a>(
  session: &[u8],
  answers: &[u8],
  state: &'a [u8],
  block: &[u8],
  table: &[u8],
) -> Result<(Session, LayoutSpec, &'a [u8; 256]), u32> {
  if session.len() != AREA || answers.len() != AREA {
    return Err(1);
  }
  let state = state.try_into().map_err(|_| 2_u32)?;
  let layout = block::decode(0, block).map_err(|_| 3_u32)?;
  break_table::decode(table).map_err(|_| 11_u32)?;
  let session = session::decode(session).ok_or(4_u32)?;
  Ok((session, layout, state))
}

/// The questions put to a call that brings a message.
#[allow(clippy::too_many_arguments)]
pub fn open_refused(
  session: &[u8],
  answers: &[u8],
  state: &[u8],
  block: &[u8],
  table: &[u8],
  kind: u32,
  wparam: u64,
  lparam: u64,
) -> Option<u32> {
  match inputs(session, answers, state, block, table) {
    Ok((session, layout, state)) => open_refused_in(&session, &layout, state, kind, wparam, lparam),
    Err(number) => Some(number),
  }
}

/// The questions put to a finish.
pub fn finish_refused(
  session: &[u8],
  answers: &[u8],
  state: &[u8],
  block: &[u8],
  table: &[u8],
  token: u32,
) -> Option<u32> {
  match inputs(session, answers, state, block, table) {
    Ok((session, _, _)) => finish_refused_in(&session, token),
    Err(number) => Some(number),
  }
}

#[cfg(test)]
mod tests;
