//! Events, and the area that takes them.
use crate::{area::Area, raw, Key, PhysicalKey, AREA_SIZE, TEXT_MOST};
use std::{fmt, ops::Deref, str};

/// A text of an event: 1 to 48 bytes of UTF-8, without an allocation.
#[derive(Clone, Copy, PartialEq, Eq, Hash)]
pub struct Text {
  bytes: [u8; TEXT_MOST],
  len: u8,
}

impl Text {
  /// A text of event i of an answer area; the outer `None` where the library hands out none that is a text.
  fn read(answers: &[u8], i: u32, which: u32) -> Option<Option<Text>> {
    let mut bytes = [0; TEXT_MOST];
    let len = raw::event_text(answers, i, which, &mut bytes);
    if len == 0 {
      return Some(None);
    }
    let len = u8::try_from(len).ok()?;
    str::from_utf8(bytes.get(..len.into())?).ok()?;
    Some(Some(Text { bytes, len }))
  }

  /// Its characters.
  pub fn as_str(&self) -> &str {
    str::from_utf8(&self.bytes[..self.len.into()]).expect("read as UTF-8")
  }
}

impl Deref for Text {
  type Target = str;

  fn deref(&self) -> &str {
    self.as_str()
  }
}

impl PartialEq<str> for Text {
  fn eq(&self, other: &str) -> bool {
    self.as_str() == other
  }
}

impl PartialEq<&str> for Text {
  fn eq(&self, other: &&str) -> bool {
    self.as_str() == *other
  }
}

impl fmt::Display for Text {
  fn fmt(&self, f: &mut fmt::Formatter<'_>) -> fmt::Result {
    f.write_str(self)
  }
}

/// Says how long the text is and not what it says: what was typed belongs into no log. `Display` and [`Text::as_str`] have it.
impl fmt::Debug for Text {
  fn fmt(&self, f: &mut fmt::Formatter<'_>) -> fmt::Result {
    write!(f, "Text({} bytes)", self.len)
  }
}

/// tao's `KeyLocation`.
#[derive(Clone, Copy, PartialEq, Eq, Hash, Debug)]
pub enum KeyLocation {
  /// Where there is one key of its kind.
  Standard,
  /// The left one.
  Left,
  /// The right one.
  Right,
  /// The one on the numpad.
  Numpad,
}

/// tao's `ElementState`.
#[derive(Clone, Copy, PartialEq, Eq, Hash, Debug)]
pub enum ElementState {
  /// A press.
  Pressed,
  /// A release.
  Released,
}

/// tao's `KeyEvent`, with the two fields of `KeyEventExtra` and whether it is synthetic.
#[derive(Clone, Copy, PartialEq, Eq, Hash)]
pub struct Event {
  /// The key on the keyboard.
  pub physical_key: PhysicalKey,
  /// What it means in the layout, with the modifiers.
  pub logical_key: Key,
  /// What the press types; a release has none.
  pub text: Option<Text>,
  /// Which of several keys of its kind.
  pub location: KeyLocation,
  /// Pressed or released.
  pub state: ElementState,
  /// Whether bits 30 and 31 of the message's lParam differ, as tao has it: for a press, that the key was down before; an ordinary release,
  /// which has both bits, is no repeat. In a synthetic event it is false.
  pub repeat: bool,
  /// Whether a focus change wrote the event: such a press was not typed now, so its text is to be taken from no card.
  pub synthetic: bool,
  /// What the characters brought, Control heeded; in a synthetic event the text.
  pub text_with_all_modifiers: Option<Text>,
  /// What the key means without modifiers.
  pub key_without_modifiers: Key,
}

impl Event {
  /// Event i of an answer area; none where the area has no such event.
  pub fn read(answers: &[u8], i: u32) -> Option<Event> {
    use raw::{field, text};
    let mut fields = [0; raw::FIELDS];
    if raw::event(answers, i, &mut fields) != 0 {
      return None;
    }
    let three = |at: usize| &fields[at..at + 3];
    let logical_character = Text::read(answers, i, text::OF_LOGICAL_KEY)?;
    let plain_character = Text::read(answers, i, text::OF_KEY_WITHOUT_MODIFIERS)?;
    Some(Event {
      physical_key: PhysicalKey::from_fields(three(field::PHYSICAL_KEY))?,
      logical_key: Key::from_fields(three(field::LOGICAL_KEY), logical_character)?,
      text: Text::read(answers, i, text::OF_EVENT)?,
      location: match fields[field::LOCATION] {
        0 => KeyLocation::Standard,
        1 => KeyLocation::Left,
        2 => KeyLocation::Right,
        3 => KeyLocation::Numpad,
        _ => return None,
      },
      state: if yes(fields[field::STATE])? { ElementState::Released } else { ElementState::Pressed },
      repeat: yes(fields[field::REPEAT])?,
      synthetic: yes(fields[field::SYNTHETIC])?,
      text_with_all_modifiers: Text::read(answers, i, text::WITH_ALL_MODIFIERS)?,
      key_without_modifiers: Key::from_fields(three(field::KEY_WITHOUT_MODIFIERS), plain_character)?,
    })
  }
}

fn yes(field: u32) -> Option<bool> {
  match field {
    0 => Some(false),
    1 => Some(true),
    _ => None,
  }
}

/// Says neither key nor text: what was typed belongs into no log. `Display` has all of it.
impl fmt::Debug for Event {
  fn fmt(&self, f: &mut fmt::Formatter<'_>) -> fmt::Result {
    f.debug_struct("Event")
      .field("state", &self.state)
      .field("repeat", &self.repeat)
      .field("synthetic", &self.synthetic)
      .finish_non_exhaustive()
  }
}

/// In one line with all that was typed, as crates/station prints it.
impl fmt::Display for Event {
  fn fmt(&self, f: &mut fmt::Formatter<'_>) -> fmt::Result {
    let location = match self.location {
      KeyLocation::Standard => "standard",
      KeyLocation::Left => "left",
      KeyLocation::Right => "right",
      KeyLocation::Numpad => "numpad",
    };
    let state = if self.state == ElementState::Pressed { "pressed" } else { "released" };
    let repeat = if self.repeat { " repeat" } else { "" };
    let synthetic = if self.synthetic { " synthetic" } else { "" };
    let text = |t: &Option<Text>| t.as_ref().map_or("none".into(), |t| format!("\"{t}\""));
    write!(
      f,
      "{} {location} {state}{repeat}{synthetic}: key {}, text {}, with all modifiers {}, without modifiers {}",
      self.physical_key,
      self.logical_key,
      text(&self.text),
      text(&self.text_with_all_modifiers),
      self.key_without_modifiers
    )
  }
}

/// The answer area: it takes the events of a call, over those of the call before. Cleared when it is dropped.
pub struct Answers {
  pub(crate) area: Area,
}

impl Answers {
  /// An area without events.
  pub fn new() -> Answers {
    Answers { area: Area::zeros() }
  }

  /// The events of the last call that was answered: a refused call leaves them here. The calls return their own events.
  pub fn events(&self) -> Events<'_> {
    Events::new(self.area.bytes())
  }

  /// Forgets the events, before the next call does or the area is dropped.
  pub fn clear(&mut self) {
    self.area.clear();
  }

  /// The area's bytes (docs/AREAS.md).
  pub fn as_bytes(&self) -> &[u8; AREA_SIZE] {
    self.area.bytes()
  }
}

impl Default for Answers {
  fn default() -> Answers {
    Answers::new()
  }
}

/// Says how many events there are and not which: what was typed belongs into no log.
impl fmt::Debug for Answers {
  fn fmt(&self, f: &mut fmt::Formatter<'_>) -> fmt::Result {
    f.debug_struct("Answers").field("events", &self.events().len()).finish_non_exhaustive()
  }
}

/// The events of an answer area, in their order.
#[derive(Clone)]
#[must_use = "an event is handed out once"]
pub struct Events<'a> {
  answers: &'a [u8; AREA_SIZE],
  next: u32,
  count: u32,
}

impl<'a> Events<'a> {
  /// The area is one that only the library writes, so it is in order: an event that can't be read would be one lost, and is no `None`.
  pub(crate) fn new(answers: &'a [u8; AREA_SIZE]) -> Events<'a> {
    let count = raw::event_count(answers);
    assert_ne!(count, raw::NONE, "an answer area has a count");
    Events { answers, next: 0, count }
  }
}

impl Iterator for Events<'_> {
  type Item = Event;

  fn next(&mut self) -> Option<Event> {
    if self.next == self.count {
      return None;
    }
    let event = Event::read(self.answers, self.next).expect("an answer area has as many events as it says");
    self.next += 1;
    Some(event)
  }

  fn size_hint(&self) -> (usize, Option<usize>) {
    let left = (self.count - self.next) as usize;
    (left, Some(left))
  }
}

impl ExactSizeIterator for Events<'_> {}

impl fmt::Debug for Events<'_> {
  fn fmt(&self, f: &mut fmt::Formatter<'_>) -> fmt::Result {
    f.debug_struct("Events").field("left", &self.len()).finish_non_exhaustive()
  }
}
