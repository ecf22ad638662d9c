//! The layout block: its one encoding, and the check (question 3) with the reading.
use kbtypes::{Code, Key, LayoutSpec, Native, CODE_NAMES, KEY_NAMES};
use std::collections::BTreeMap;

pub const HEADER: usize = 2634;
pub const LISTS: usize = 18;
pub const MOST: usize = 65_536;
pub const ENTRY: usize = 16;
pub const TEXT_MOST: usize = 24;

const COUNTS: usize = 2;
const LENGTHS: usize = 38;
const NON_CHAR: usize = 74;
const SCAN_CODES: usize = 586;
const VIRTUAL_KEYS: usize = 1098;

/// Why bytes are no block, or maps have none.
#[derive(Clone, Copy, PartialEq, Eq, Debug)]
pub enum Fault {
  /// More than `MOST` bytes.
  TooLong,
  /// No room for the header.
  TooShort,
  /// Byte 0 is neither 0 nor 1.
  Flag,
  /// Byte 1 is not 0.
  SecondByte,
  /// The non-character key of this virtual key is no named key.
  NonChar(usize),
  /// The lists' lengths do not lead to the end of the block.
  Lengths,
  /// This list's entries do not take the list's length.
  Entries(usize),
  /// An entry of this list.
  Entry(usize, EntryFault),
}

#[derive(Clone, Copy, PartialEq, Eq, Debug)]
pub enum EntryFault {
  /// It ends behind its list.
  Cut,
  /// Its key is not above the one before.
  Order,
  /// Its key is no virtual key, or no key code.
  Key,
  /// Its value's number and fields stand for no key.
  Value,
  /// The text's length does not go with the value.
  Length,
  /// The text is no UTF-8.
  Text,
}

// ---- numbers

pub(crate) fn native_number(n: Native) -> (u8, u32) {
  match n {
    Native::Unidentified => (0, 0),
    Native::Windows(v) => (1, v.into()),
    Native::MacOS(v) => (2, v.into()),
    Native::Gtk(v) => (3, v.into()),
    Native::Android(v) => (4, v as u32),
  }
}

pub(crate) fn native_at(kind: u8, value: u32) -> Option<Native> {
  let short = u16::try_from(value).ok();
  match kind {
    0 => (value == 0).then_some(Native::Unidentified),
    1 => short.map(Native::Windows),
    2 => short.map(Native::MacOS),
    3 => short.map(Native::Gtk),
    4 => Some(Native::Android(value as i32)),
    _ => None,
  }
}

fn code_number(c: Code) -> u64 {
  match c {
    Code::Named(place) => u64::from(place) << 40,
    Code::Unidentified(n) => {
      let (kind, value) = native_number(n);
      u64::from(kind) << 32 | u64::from(value)
    }
  }
}

fn code_at(number: u64) -> Option<Code> {
  let place = number >> 40;
  if place == 0 {
    native_at((number >> 32) as u8, number as u32).map(Code::Unidentified)
  } else {
    let named = place < CODE_NAMES.len() as u64 && number & 0xFF_FFFF_FFFF == 0;
    named.then_some(Code::Named(place as u16))
  }
}

fn is_named(place: u16) -> bool {
  (3..KEY_NAMES.len()).contains(&usize::from(place))
}

/// Number, second field, third field, text.
pub(crate) fn key_fields(key: &Key) -> (u16, u8, u32, &str) {
  match key {
    Key::Character(text) => (0, 0, 0, text),
    Key::Unidentified(n) => {
      let (kind, value) = native_number(*n);
      (1, kind, value, "")
    }
    Key::Dead(None) => (2, 0, 0, ""),
    Key::Dead(Some(c)) => (2, 1, u32::from(*c), ""),
    Key::Named(place) => (*place, 0, 0, ""),
  }
}

/// A character's text has at most `most` bytes.
pub(crate) fn key_at(number: u16, second: u8, third: u32, text: &[u8], most: usize) -> Result<Key, EntryFault> {
  let value = match (number, second, third) {
    (0, 0, 0) => Some(None),
    (1, kind, value) => native_at(kind, value).map(|n| Some(Key::Unidentified(n))),
    (2, 0, 0) => Some(Some(Key::Dead(None))),
    (2, 1, c) => char::from_u32(c).map(|c| Some(Key::Dead(Some(c)))),
    (place, 0, 0) if is_named(place) => Some(Some(Key::Named(place))),
    _ => None,
  };
  match value.ok_or(EntryFault::Value)? {
    Some(key) if text.is_empty() => Ok(key),
    None if (1..=most).contains(&text.len()) => match std::str::from_utf8(text) {
      Ok(s) => Ok(Key::Character(s.into())),
      Err(_) => Err(EntryFault::Text),
    },
    _ => Err(EntryFault::Length),
  }
}

// ---- writing

/// The eighteen lists, each as its keys' numbers, ascending, with the values.
fn lists(maps: &LayoutSpec) -> Vec<BTreeMap<u64, &Key>> {
  let locks = [&maps.numlock_on, &maps.numlock_off];
  let locks = locks.into_iter().map(|l| l.iter().map(|(v, k)| (u64::from(*v), k)).collect());
  let sets = maps.keys.iter().map(|l| l.iter().map(|(c, k)| (code_number(*c), k)).collect());
  locks.chain(sets).collect()
}

fn write_entry(out: &mut Vec<u8>, key: u64, value: &Key) {
  let (number, second, third, text) = key_fields(value);
  out.extend(key.to_le_bytes());
  out.extend(number.to_le_bytes());
  out.push(second);
  out.push(text.len() as u8);
  out.extend(third.to_le_bytes());
  out.extend(text.as_bytes());
}

/// The bytes that the block of these maps takes.
pub fn size(maps: &LayoutSpec) -> usize {
  let lists = lists(maps);
  HEADER + lists.iter().flat_map(|l| l.values()).map(|k| ENTRY + key_fields(k).3.len()).sum::<usize>()
}

/// Writes maps of this size. What it wrote may be no block: a text too long, a place out of range.
fn write(maps: &LayoutSpec) -> Vec<u8> {
  let lists = lists(maps);
  let mut bodies = vec![Vec::new(); LISTS];
  for (list, body) in lists.iter().zip(&mut bodies) {
    list.iter().for_each(|(key, value)| write_entry(body, *key, value));
  }
  let counts = lists.iter().map(|l| l.len() as u16);
  let lengths = bodies.iter().map(|b| b.len() as u16);
  let non_char = maps.non_char.iter().map(|p| p.unwrap_or(0));
  let tables = maps.scan_of_vk.iter().chain(maps.vk_of_scan.iter().flatten()).copied();
  let mut out = vec![u8::from(maps.alt_gr), 0];
  out.extend(counts.chain(lengths).chain(non_char).chain(tables).flat_map(u16::to_le_bytes));
  assert_eq!(out.len(), HEADER);
  out.extend(bodies.concat());
  out
}

/// The block of these maps.
pub fn encode(maps: &LayoutSpec) -> Result<Vec<u8>, Fault> {
  if size(maps) > MOST {
    return Err(Fault::TooLong);
  }
  let block = write(maps);
  let back = decode(maps.id, &block)?;
  assert!(back == *maps, "the block stands for other maps");
  Ok(block)
}

// ---- reading

fn word(block: &[u8], at: usize) -> u16 {
  u16::from_le_bytes([block[at], block[at + 1]])
}

/// The 256 numbers of two bytes from `at` on.
fn words(block: &[u8], at: usize) -> [u16; 256] {
  std::array::from_fn(|i| word(block, at + 2 * i))
}

/// Takes the entry at the head of `rest`; `low` is the least key that ascends.
fn entry(rest: &mut &[u8], low: u64) -> Result<(u64, Key), EntryFault> {
  let (head, behind) = rest.split_first_chunk::<ENTRY>().ok_or(EntryFault::Cut)?;
  let [k0, k1, k2, k3, k4, k5, k6, k7, n0, n1, second, length, t0, t1, t2, t3] = *head;
  let (text, behind) = behind.split_at_checked(length.into()).ok_or(EntryFault::Cut)?;
  *rest = behind;
  let key = u64::from_le_bytes([k0, k1, k2, k3, k4, k5, k6, k7]);
  if key < low {
    return Err(EntryFault::Order);
  }
  let third = u32::from_le_bytes([t0, t1, t2, t3]);
  let value = key_at(u16::from_le_bytes([n0, n1]), second, third, text, TEXT_MOST)?;
  Ok((key, value))
}

/// A list of `count` entries that takes all of `bytes`; `key` reads the number of an entry's key.
fn list<K: Ord>(bytes: &[u8], count: u16, j: usize, key: fn(u64) -> Option<K>) -> Result<BTreeMap<K, Key>, Fault> {
  let mut rest = bytes;
  let mut low = 0;
  let mut out = BTreeMap::new();
  for _ in 0..count {
    let (number, value) = entry(&mut rest, low).map_err(|e| Fault::Entry(j, e))?;
    out.insert(key(number).ok_or(Fault::Entry(j, EntryFault::Key))?, value);
    low = number + 1;
  }
  if rest.is_empty() {
    Ok(out)
  } else {
    Err(Fault::Entries(j))
  }
}

fn virtual_key(number: u64) -> Option<u8> {
  u8::try_from(number).ok()
}

/// Question 3: the maps that these bytes stand for, if they are a block.
pub fn decode(id: u32, block: &[u8]) -> Result<LayoutSpec, Fault> {
  if block.len() > MOST {
    return Err(Fault::TooLong);
  }
  if block.len() < HEADER {
    return Err(Fault::TooShort);
  }
  if block[0] > 1 {
    return Err(Fault::Flag);
  }
  if block[1] != 0 {
    return Err(Fault::SecondByte);
  }
  let mut maps = LayoutSpec::empty(id);
  maps.alt_gr = block[0] == 1;
  for (vk, place) in words(block, NON_CHAR).into_iter().enumerate() {
    maps.non_char[vk] = match place {
      0 => None,
      p if is_named(p) => Some(p),
      _ => return Err(Fault::NonChar(vk)),
    };
  }
  maps.scan_of_vk = words(block, SCAN_CODES);
  maps.vk_of_scan = std::array::from_fn(|page| words(block, VIRTUAL_KEYS + 512 * page));
  let mut rest = &block[HEADER..];
  for j in 0..LISTS {
    let length = usize::from(word(block, LENGTHS + 2 * j));
    let (bytes, behind) = rest.split_at_checked(length).ok_or(Fault::Lengths)?;
    rest = behind;
    let count = word(block, COUNTS + 2 * j);
    match j {
      0 => maps.numlock_on = list(bytes, count, j, virtual_key)?,
      1 => maps.numlock_off = list(bytes, count, j, virtual_key)?,
      _ => maps.keys[j - 2] = list(bytes, count, j, code_at)?,
    }
  }
  if rest.is_empty() {
    Ok(maps)
  } else {
    Err(Fault::Lengths)
  }
}

/// Numbers of entries and lengths of the lists, as the header has them.
pub fn list_sizes(block: &[u8]) -> [(u16, u16); LISTS] {
  std::array::from_fn(|j| (word(block, COUNTS + 2 * j), word(block, LENGTHS + 2 * j)))
}

#[cfg(test)]
mod tests;
