//! Reads a recording of what the keyboard layout functions answered (recordings/README.md).
use crate::prepare::{self, Answers};
use kbtypes as t;
use std::collections::HashMap;

/// What one ToUnicodeEx call returned, and its units.
type Units = (i32, Vec<u16>);

#[derive(Clone)]
struct Text {
  scan: u16,
  first: Units,
  /// For a dead key, the second call.
  again: Option<Units>,
}

/// The answers for one layout.
pub struct Recording {
  pub name: String,
  pub handle: usize,
  pub scan_of_vk: [u16; 256],
  pub vk_of_scan: [[u16; 256]; 3],
  /// Under the set of modifiers and the virtual key; absent where ToUnicodeEx returned 0.
  texts: HashMap<(u8, u8), Text>,
}

fn hex(word: &str) -> Result<usize, String> {
  usize::from_str_radix(word, 16).map_err(|e| format!("{word}: {e}"))
}
fn small<T: TryFrom<usize>>(word: &str) -> Result<T, String> {
  T::try_from(hex(word)?).map_err(|_| format!("{word}: too large"))
}

/// `N UNITS...`; a dead key has one unit and N below 0.
fn units(words: &[&str]) -> Result<Units, String> {
  let (n, rest) = words.split_first().ok_or("no count")?;
  let n: i32 = n.parse().map_err(|e| format!("{n}: {e}"))?;
  let rest = rest.iter().map(|w| small(w)).collect::<Result<Vec<u16>, String>>()?;
  let room = if n < 0 { 1 } else { n as usize };
  if rest.len() != room || room > 8 {
    return Err(format!("{} units for {n}", rest.len()));
  }
  Ok((n, rest))
}

fn text(words: &[&str]) -> Result<((u8, u8), Text), String> {
  let [mods, vk, scan, rest @ ..] = words else { return Err("too few words".into()) };
  let mut parts = rest.split(|w| *w == "again");
  let first = units(parts.next().unwrap())?;
  let again = parts.next().map(units).transpose()?;
  if (first.0 < 0) != again.is_some() || parts.next().is_some() {
    return Err("a dead key, and only that, is asked again once".into());
  }
  let mods = small::<u8>(mods)?;
  if mods > 15 {
    return Err("no such set of modifiers".into());
  }
  Ok(((mods, small(vk)?), Text { scan: small(scan)?, first, again }))
}

impl Recording {
  fn line(&mut self, words: &[&str]) -> Result<(), String> {
    match words {
      ["vk2sc", vk, scan] => self.scan_of_vk[usize::from(small::<u8>(vk)?)] = small(scan)?,
      ["sc2vk", scan, vk] => {
        let scan = hex(scan)?;
        let page = [0x00, 0xE0, 0xE1].iter().position(|p| *p == scan >> 8).ok_or("no such page")?;
        self.vk_of_scan[page][scan & 0xFF] = small(vk)?;
      }
      ["uni", rest @ ..] => {
        let (at, text) = text(rest)?;
        if self.texts.insert(at, text).is_some() {
          return Err("asked twice".into());
        }
      }
      _ => return Err("unknown line".into()),
    }
    Ok(())
  }

  /// Every layout of the recording, in order.
  pub fn read(recording: &str) -> Result<Vec<Recording>, String> {
    let mut done = Vec::new();
    let mut now: Option<Recording> = None;
    for (i, line) in recording.lines().enumerate() {
      let at = |e: String| format!("line {}: {e}", i + 1);
      let words: Vec<&str> = line.split(' ').collect();
      match (&words[..], now.as_mut()) {
        (["list", ..], None) => (),
        (["layout", name, handle], None) => {
          now = Some(Recording {
            name: name.to_string(),
            handle: hex(handle).map_err(at)?,
            scan_of_vk: [0; 256],
            vk_of_scan: [[0; 256]; 3],
            texts: HashMap::new(),
          });
        }
        (["end"], Some(_)) => done.extend(now.take()),
        (_, Some(r)) => r.line(&words).map_err(at)?,
        _ => return Err(at("outside a layout".into())),
      }
    }
    if now.is_some() {
      return Err("no end".into());
    }
    Ok(done)
  }

  /// The recorded answers of ToUnicodeEx, the second ones of dead keys included.
  fn answers(&self) -> Answers {
    let texts = self.texts.clone();
    let mut dead = None;
    Box::new(move |vk, scan, state, out| {
      let at = (set_of(state), vk as u8);
      let was_dead = dead.take() == Some(at);
      let Some(text) = texts.get(&at) else { return 0 };
      assert_eq!(scan, u32::from(text.scan), "asked with another scan code than recorded");
      let (n, units) = match (&text.again, was_dead) {
        (Some(again), true) => again,
        (Some(_), false) => {
          dead = Some(at);
          &text.first
        }
        (None, _) => &text.first,
      };
      out[..units.len()].copy_from_slice(units);
      *n
    })
  }

  /// tao's prepare_layout on these answers.
  pub fn prepare(&self, id: u32) -> t::LayoutSpec {
    prepare::prepare(id, self.handle, self.scan_of_vk, self.vk_of_scan, self.answers())
  }
}

/// The set of modifiers in a key state that holds nothing else.
fn set_of(state: &[u8; 256]) -> u8 {
  let mut set = 0;
  for (vk, byte) in state.iter().enumerate().filter(|(_, b)| **b != 0) {
    set |= match (vk, byte) {
      (0x10, 0x80) => 1,
      (0x11, 0x80) => 2,
      (0x12, 0x80) => 4,
      (0x14, 0x01) => 8,
      _ => panic!("key state {vk:02X}:{byte:02X} was not recorded"),
    };
  }
  set
}

#[cfg(test)]
mod tests {
  use super::*;

  fn one(lines: &str) -> t::LayoutSpec {
    let text = format!("layout test 00000407\nvk2sc 41 001e\nvk2sc dd 001b\n{lines}end\n");
    Recording::read(&text).unwrap()[0].prepare(1)
  }
  fn at(s: &t::LayoutSpec, set: usize, scan: u32) -> &t::Key {
    &s.keys[set][&crate::lookups::code(scan)]
  }

  #[test]
  fn dead_keys_are_asked_twice() {
    let s = one("uni 0 dd 001b -1 00b4 again 1 00b4\nuni 1 dd 001b -1 0060 again 0\n");
    assert_eq!(at(&s, 0, 0x1B), &t::Key::Dead(Some('´')));
    assert_eq!(at(&s, 1, 0x1B), &t::Key::Dead(None));
    assert_eq!(at(&s, 2, 0x1B), &t::Key::Unidentified(t::Native::Windows(0x1B)));
  }

  /// Control and Alt give another character: the layout has AltGr.
  #[test]
  fn alt_gr_is_found() {
    let s = one("vk2sc a5 e038\nuni 0 41 001e 1 0061\nuni 6 41 001e 2 d83d de00\n");
    assert!(s.alt_gr);
    assert_eq!(at(&s, 6, 0x1E), &t::Key::Character("😀".into()));
    assert_eq!(at(&s, 0, 0xE038), &t::Key::Named(4));
    assert_eq!(s.non_char[0xA5], Some(4));
    assert!(!one("vk2sc a5 e038\nuni 0 41 001e 1 0061\nuni 6 41 001e 1 0061\n").alt_gr);
  }

  #[test]
  fn an_unpaired_unit_is_no_text() {
    let s = one("uni 0 41 001e 1 d83d\n");
    assert_eq!(at(&s, 0, 0x1E), &t::Key::Unidentified(t::Native::Windows(0x1E)));
  }

  #[test]
  fn other_lines_are_refused() {
    for bad in
      ["uni 0 41 001e 2 0061", "uni 10 41 001e 1 0061", "uni 0 dd 001b -1 00b4", "sc2vk e200 41", "vk2sc 100 1"]
    {
      assert!(Recording::read(&format!("layout test 407\n{bad}\nend\n")).is_err(), "{bad}");
    }
    assert!(Recording::read("layout test 407\n").is_err());
  }
}
