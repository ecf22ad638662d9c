//! Each byte of the events of an answer area, with all values, as the readers of events see it.
use super::Tried;
use crate::{
  fields::c_event,
  layouts::Layouts,
  library::{self, FIELDS, NONE, TEXT_MOST},
  run::{Difference, Stopped},
};
use areas::event::{self, EVENT};
use kbtypes::{ElementState, Event, Key, Native};
use tao_oracle::lookups;

/// What the readers say of the events of an answer area, against the independent reading.
fn readers(area: &[u8]) -> Result<bool, String> {
  let count = u32::from(u16::from_le_bytes([area[0], area[1]]));
  let want = if count > 256 { NONE } else { count };
  if library::event_count(area) != want {
    return Err(format!("event_count says {}", library::event_count(area)));
  }
  let mut fine = count <= 256;
  for i in 0..5_u32 {
    let at = 2 + i as usize * EVENT;
    let read = if i < count && count <= 256 { event::decode(&area[at..at + EVENT]) } else { None };
    let mut fields = [7; FIELDS];
    let got = library::event(area, i, &mut fields);
    let (want, texts) = read.as_ref().map_or(([7; FIELDS], [""; 4]), c_event);
    if got != u32::from(read.is_none()) || fields != want {
      return Err(format!("event {i}: {got}, {fields:X?}, and the reading has {read:?}"));
    }
    for (which, text) in texts.iter().enumerate() {
      let mut room = [7; TEXT_MOST];
      let got = library::event_text(area, i, which as u32, &mut room);
      let mut want = [7; TEXT_MOST];
      want[..text.len()].copy_from_slice(text.as_bytes());
      let length = if read.is_some() { text.len() as u32 } else { NONE };
      if got != length || room != want {
        return Err(format!("text {which} of event {i}: {got:X}, and the reading has {read:?}"));
      }
    }
    fine &= i >= count || read.is_some();
  }
  Ok(fine)
}

pub fn run() -> Result<Tried, Stopped> {
  let (mut tried, mut in_order) = (0, 0);
  let l = Layouts::new();
  let natives = [Native::Unidentified, Native::Windows(0x7F), Native::Android(-2)];
  let mut events: Vec<Event> = natives
    .iter()
    .map(|n| Event {
      physical_key: kbtypes::Code::Unidentified(*n),
      logical_key: Key::Unidentified(*n),
      text: None,
      location: kbtypes::Location::Left,
      state: ElementState::Released,
      repeat: true,
      synthetic: false,
      text_with_all_modifiers: Some("é".into()),
      key_without_modifiers: Key::Dead(Some('´')),
    })
    .collect();
  events[1].logical_key = Key::Character("€".repeat(16).into());
  events[1].text = Some("€".repeat(16).into());
  events[1].key_without_modifiers = Key::Character("twenty-four bytes: a\u{10FFFF}".into());
  events[2].physical_key = lookups::code(0x02);
  events[2].logical_key = l.accent.maps.keys[0].values().next().cloned().expect("a key");
  let area = event::answers(&events);
  let mut now = area.clone();
  for at in 0..2 + 4 * EVENT {
    for byte in 0..=255 {
      now[at] = byte;
      tried += 1;
      match readers(&now) {
        Ok(fine) => in_order += u64::from(fine),
        Err(what) => {
          let what = format!("answer area, byte {at} is {byte:02X}: {what}");
          return Err((vec![], Difference { at: 0, what }));
        }
      }
    }
    now[at] = area[at];
  }
  Ok((tried, in_order))
}
