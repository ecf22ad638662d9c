//! Random values for the tests.
use crate::{
  block::TEXT_MOST,
  session::{Entry, EntryState, Held, Info, Session, UNITS},
};
use kbtypes::{
  BreakRange, BreakTable, Code, ElementState, Event, Key, LayoutSpec, Location, Native, CODE_NAMES, KEY_NAMES,
};

/// A plain generator of numbers (xorshift), so that every run is the same.
pub struct Dice(pub u64);
impl Dice {
  pub fn next(&mut self) -> u64 {
    self.0 ^= self.0 << 13;
    self.0 ^= self.0 >> 7;
    self.0 ^= self.0 << 17;
    self.0
  }
  pub fn below(&mut self, n: usize) -> usize {
    (self.next() >> 11) as usize % n
  }
  pub fn yes(&mut self, one_in: usize) -> bool {
    self.below(one_in) == 0
  }
  pub fn word(&mut self) -> u16 {
    [0, 1, 0xFF, 0x100, 0xE11D, 0xFFFF, self.next() as u16][self.below(7)]
  }
  pub fn native(&mut self) -> Native {
    match self.below(5) {
      0 => Native::Unidentified,
      1 => Native::Windows(self.word()),
      2 => Native::MacOS(self.word()),
      3 => Native::Gtk(self.word()),
      _ => Native::Android([0, 1, -1, i32::MIN, i32::MAX, self.next() as i32][self.below(6)]),
    }
  }
  pub fn code(&mut self) -> Code {
    if self.yes(3) {
      Code::Unidentified(self.native())
    } else {
      Code::Named(1 + self.below(CODE_NAMES.len() - 1) as u16)
    }
  }
  pub fn scalar(&mut self) -> char {
    let edges = [0, 0x7F, 0x80, 0x7FF, 0x800, 0xD7FF, 0xE000, 0xFFFF, 0x10000, 0x10FFFF];
    let top = [0x80, 0x800, 0x10000, 0x110000][self.below(4)];
    let c = if self.yes(4) { edges[self.below(10)] } else { self.below(top) as u32 };
    char::from_u32(c).unwrap_or('\u{FFFD}')
  }
  /// 1 to 24 bytes.
  pub fn text(&mut self) -> String {
    self.text_within(TEXT_MOST)
  }
  pub fn text_within(&mut self, most: usize) -> String {
    let most = if self.yes(2) { 1 + self.below(4) } else { 1 + self.below(most) };
    let mut s = String::new();
    loop {
      let c = self.scalar();
      if s.len() + c.len_utf8() <= most {
        s.push(c);
      } else if !s.is_empty() {
        return s;
      }
    }
  }
  pub fn key(&mut self) -> Key {
    match self.below(5) {
      0 | 1 => Key::Character(self.text().into()),
      2 => Key::Unidentified(self.native()),
      3 if self.yes(2) => Key::Dead(None),
      3 => Key::Dead(Some(self.scalar())),
      _ => Key::Named(3 + self.below(KEY_NAMES.len() - 3) as u16),
    }
  }
  pub fn maps(&mut self, most: usize) -> LayoutSpec {
    let mut m = LayoutSpec::empty(self.next() as u32);
    m.alt_gr = self.yes(2);
    m.non_char.fill_with(|| (!self.yes(3)).then(|| 3 + self.below(KEY_NAMES.len() - 3) as u16));
    m.scan_of_vk.fill_with(|| self.word());
    m.vk_of_scan.iter_mut().flatten().for_each(|v| *v = self.word());
    m.numlock_on = (0..self.below(most + 1)).map(|_| (self.next() as u8, self.key())).collect();
    m.numlock_off = (0..self.below(most + 1)).map(|_| (self.next() as u8, self.key())).collect();
    for list in &mut m.keys {
      *list = (0..self.below(most + 1)).map(|_| (self.code(), self.key())).collect();
    }
    m
  }
  /// A break table of at most so many ranges, some of which follow directly.
  pub fn table(&mut self, ranges: usize) -> BreakTable {
    let mut ends: Vec<char> = (0..2 * ranges).map(|_| self.scalar()).collect();
    ends.sort();
    let mut table = BreakTable::default();
    for two in ends.chunks_exact(2) {
      let before = table.ranges.last().map_or(0, |r: &BreakRange| u32::from(r.last) + 1);
      let first = if self.yes(3) { char::from_u32(before).unwrap_or(two[0]) } else { two[0] };
      let last = if self.yes(3) { first } else { two[1].max(first) };
      if u32::from(first) >= before {
        let class = self.below(14) as u8;
        table.ranges.push(BreakRange { first, last, class, pictograph: self.yes(2) });
      }
    }
    table
  }
  pub fn location(&mut self) -> Location {
    [Location::Standard, Location::Left, Location::Right, Location::Numpad][self.below(4)]
  }
  fn typed(&mut self) -> Option<std::sync::Arc<str>> {
    self.yes(2).then(|| self.text_within(48).into())
  }
  pub fn event(&mut self) -> Event {
    Event {
      physical_key: self.code(),
      logical_key: if self.yes(3) { Key::Character(self.text_within(48).into()) } else { self.key() },
      text: self.typed(),
      location: self.location(),
      state: if self.yes(2) { ElementState::Pressed } else { ElementState::Released },
      repeat: self.yes(2),
      synthetic: self.yes(2),
      text_with_all_modifiers: self.typed(),
      key_without_modifiers: self.key(),
    }
  }
  pub fn info(&mut self) -> Info {
    Info {
      scancode: self.word(),
      repeat: self.yes(2),
      location: self.location(),
      logical_key: self.key(),
      key_without_modifiers: self.key(),
    }
  }
  pub fn held(&mut self) -> Held {
    let units = self.below(UNITS + 1);
    Held {
      info: self.info(),
      vkey: self.word(),
      mark: self.yes(2),
      units: (0..units).map(|_| if self.yes(2) { 0xD83D } else { self.word() }).collect(),
    }
  }
  /// An open message.
  pub fn open(&mut self) -> EntryState {
    match self.below(3) {
      0 => {
        EntryState::Press { vkey: self.word(), scancode: self.next() as u8, extended: self.yes(2), repeat: self.yes(2) }
      }
      1 => EntryState::Release(self.info()),
      _ => EntryState::Character,
    }
  }
  /// `open` messages among so many entries, some tokens passed over.
  pub fn session(&mut self, open: usize, entries: usize) -> Session {
    let mut left = open;
    let (mut handed, mut all) = (0, Vec::new());
    for i in 0..entries {
      let now = left > 0 && (i == 0 || left == entries - i || self.yes(entries / open));
      handed += self.below(3) as u16;
      let state = if now { self.open() } else { EntryState::Complete(self.event()) };
      left -= usize::from(now);
      all.push(Entry { token: handed, state });
      handed += 1;
    }
    if entries > 0 {
      handed += self.below(3) as u16;
    }
    Session { handed, held: (!self.yes(3)).then(|| self.held()), entries: all }
  }
}
