//! Texts of every length that a layout can have, 1 to 24 bytes, ASCII and not, on every way from the layout to an event.
use crate::examples::{
  boards::{code, key, text, Board},
  scripts::{alone, bring, character, dead_character, gain, loss, more, press, release, Step},
  tables::{Table, Tables},
};
use areas::{block::TEXT_MOST, break_table::write};
use kbtypes::{Key, LayoutSpec};
use std::sync::Arc;

/// Scan codes of the keys A to X, whose texts without modifiers have 1 to 24 bytes.
const SCANS: [u16; TEXT_MOST] = [
  0x1E, 0x30, 0x2E, 0x20, 0x12, 0x21, 0x22, 0x23, 0x17, 0x24, 0x25, 0x26, 0x32, 0x31, 0x18, 0x19, 0x10, 0x13, 0x1F,
  0x14, 0x16, 0x2F, 0x11, 0x2D,
];

const A: u8 = 0x41;

/// The most units that a press holds.
const UNITS: usize = 16;

/// Dead keys on the digits from 1 on: a character of one to four bytes, and none.
const DEAD: [Option<char>; 5] = [Some('`'), Some('´'), Some('\u{309B}'), Some('\u{1_D17B}'), None];

// ---- texts

/// A text of `n` letters; another first letter for each `n`.
fn ascii(n: usize, from: usize) -> String {
  (0..n).map(|i| char::from(b'a' + ((n + i + from) % 26) as u8)).collect()
}

/// A text of `n` bytes in scalar values of two, three and four bytes. There is none of one byte: that one is a letter.
fn not_ascii(n: usize, from: usize) -> String {
  if n == 1 {
    return ascii(n, from);
  }
  let mut out = String::new();
  for i in n.. {
    let rest = n - out.len();
    let width = 2 + i % 3;
    if rest == 0 {
      break;
    }
    // one byte alone would be left over
    if rest < width || rest == width + 1 {
      continue;
    }
    let first = [0xC0, 0x4E00, 0x1_F600][width - 2];
    out.push(char::from_u32(first + ((i + from) % 48) as u32).unwrap());
  }
  out
}

type Text = fn(usize, usize) -> String;

/// Every scalar value of these texts joins what is before it, so that each text is one piece.
fn joining() -> Table {
  Table::new("joining", "", write(&[(0x61, 0x7A, 4), (0xC0, 0xEF, 4), (0x4E00, 0x4E2F, 4), (0x1_F600, 0x1_F62F, 4)]))
}

// ---- layouts

/// Shift, Control, Control with Alt and Caps Lock change every text's length, so that a text is where a longer and a
/// shorter one were. tao never asks for the texts of Control alone.
fn layout(id: u32, alt_gr: bool, of: Text) -> LayoutSpec {
  let mut l = LayoutSpec::empty(id);
  l.alt_gr = alt_gr;
  for (i, scan) in SCANS.into_iter().enumerate() {
    let vk = A + i as u8;
    let (n, name) = (i + 1, format!("Key{}", char::from(vk)));
    key(&mut l, vk, scan, None);
    let turned = TEXT_MOST + 1 - n;
    let half = (n + 11) % TEXT_MOST + 1;
    for (set, length) in [(0, n), (1, turned), (2, turned), (6, turned), (8, half)] {
      l.keys[set].insert(code(&name), text(&of(length, 5 * set)));
    }
  }
  for (i, c) in DEAD.into_iter().enumerate() {
    let name = format!("Digit{}", i + 1);
    key(&mut l, 0x31 + i as u8, 0x02 + i as u16, None);
    l.keys[0].insert(code(&name), Key::Dead(c));
    l.keys[1].insert(code(&name), text(&of(TEXT_MOST - 5 * i, 1)));
    l.keys[8].insert(code(&name), text(&of(3 + 5 * i, 2)));
  }
  // dead under Shift only
  key(&mut l, 0x36, 0x07, None);
  l.keys[0].insert(code("Digit6"), text(&of(TEXT_MOST, 3)));
  l.keys[1].insert(code("Digit6"), Key::Dead(Some('^')));
  // on the numpad with Num Lock on and off
  for (i, n) in [1, 7, 18, 24].into_iter().enumerate() {
    let vk = 0x60 + i as u8;
    key(&mut l, vk, [0x52, 0x4F, 0x50, 0x51][i], None);
    l.numlock_on.insert(vk, text(&of(n, 4)));
    l.numlock_off.insert(vk, text(&of(TEXT_MOST + 1 - n, 6)));
  }
  l
}

/// A to X are down, and with Caps Lock on.
const DOWN: [(u8, u8); TEXT_MOST] = down([(0, 0); TEXT_MOST], 0);
const DOWN_CAPS: [(u8, u8); TEXT_MOST + 1] = down([(0x14, 0x01); TEXT_MOST + 1], 1);

const fn down<const N: usize>(mut out: [(u8, u8); N], from: usize) -> [(u8, u8); N] {
  let mut i = from;
  while i < N {
    out[i] = (A + (i - from) as u8, 0x80);
    i += 1;
  }
  out
}

/// A single one of them, with Caps Lock on.
static ONE: [[(u8, u8); 2]; TEXT_MOST] = {
  let mut out = [[(0x14, 0x01); 2]; TEXT_MOST];
  let mut i = 0;
  while i < TEXT_MOST {
    out[i][1] = (A + i as u8, 0x80);
    i += 1;
  }
  out
};

/// A layout with its texts and the states of its keys.
struct Side {
  name: &'static str,
  of: Text,
  none: Board,
  shift: Board,
  control: Board,
  control_shift: Board,
  control_alt: Board,
  caps: Board,
  num_lock: Board,
  down: Board,
  down_caps: Board,
  dead_down: Board,
  one: Vec<Board>,
}

impl Side {
  fn new(name: &'static str, id: u32, alt_gr: bool, of: Text) -> Self {
    let layout = Arc::new(layout(id, alt_gr, of));
    let board = |bytes| Board { name: "", layout_name: "", layout: layout.clone(), bytes };
    Side {
      name,
      of,
      none: board(&[]),
      shift: board(&[(0xA0, 0x80)]),
      control: board(&[(0xA2, 0x80)]),
      control_shift: board(&[(0xA0, 0x80), (0xA2, 0x80)]),
      control_alt: board(&[(0xA2, 0x80), (0xA5, 0x80)]),
      caps: board(&[(0x14, 0x01)]),
      num_lock: board(&[(0x90, 0x01)]),
      down: board(&DOWN),
      down_caps: board(&DOWN_CAPS),
      dead_down: board(&[(0x31, 0x80), (0x32, 0x80), (0x33, 0x80), (0x34, 0x80), (0x35, 0x80), (0x36, 0x80)]),
      one: ONE.iter().map(|bytes| board(bytes)).collect(),
    }
  }
}

/// Virtual key and scan code of the key whose text without modifiers has `n` bytes.
fn keyed(n: usize) -> (u64, u64) {
  (u64::from(A) + n as u64 - 1, SCANS[n - 1].into())
}

/// Each text goes where a longer one was.
fn falling() -> impl Iterator<Item = usize> {
  (1..=TEXT_MOST).rev()
}

// ---- the ways

/// A press that nothing follows reads the layout at its finish.
fn presses(s: &Side, other: &Side) -> Vec<Step> {
  let mut steps = vec![];
  for b in [&s.none, &s.shift, &s.control, &s.control_shift, &s.control_alt] {
    for (vk, scan) in falling().map(keyed) {
      steps.extend([press(&other.none, vk, scan), alone(b, 0)]);
    }
  }
  steps
}

/// A release reads it at its open.
fn releases(s: &Side, other: &Side) -> Vec<Step> {
  let mut steps = vec![];
  for b in [&s.none, &s.shift] {
    for (vk, scan) in falling().map(keyed) {
      steps.extend([release(b, vk, scan), alone(&other.none, 0)]);
    }
  }
  steps
}

/// A held press and the characters that complete it, by the table of the last.
fn held(at_press: &Board, (vk, scan): (u64, u64), codes: &[u64], at_last: &Board, table: &Table) -> Vec<Step> {
  let mut steps = vec![press(at_press, vk, scan), more(at_press, 0)];
  for (i, c) in codes.iter().enumerate() {
    steps.push(character(at_press, *c));
    steps.push(if i + 1 < codes.len() { more(at_press, 0) } else { alone(at_last, 0).on(table) });
  }
  steps
}

/// A text as long as the key's own typed, where it fits, in one piece; and for the longest ones two letters in two
/// pieces, so that the press's key stands.
fn typed(s: &Side, other: &Side) -> Vec<Step> {
  let (joining, no_ranges) = (joining(), Tables::new().no_ranges);
  let mut steps = vec![];
  for n in falling() {
    let as_long = (s.of)(n, 7);
    if as_long.encode_utf16().count() <= UNITS {
      let codes: Vec<u64> = as_long.chars().map(u64::from).collect();
      steps.extend(held(&s.none, keyed(n), &codes, &other.none, &joining));
    }
    if n > UNITS {
      steps.extend(held(&s.none, keyed(n), &[0x61, 0x62], &other.none, &no_ranges));
    }
  }
  steps
}

/// With Control at the last character the text is the layout's. Where it has several pieces, the press's key stands.
fn by_control(s: &Side, other: &Side) -> Vec<Step> {
  let (joining, no_ranges) = (joining(), Tables::new().no_ranges);
  let mut steps = vec![];
  for k in falling().map(keyed) {
    steps.extend(held(&s.none, k, &[0x01], &s.control, &joining));
    steps.extend(held(&s.none, k, &[0x02], &s.control_shift, &no_ranges));
    steps.extend(held(&s.control_shift, k, &[0x61], &other.control, &joining));
  }
  steps
}

/// Dead characters that complete a held press, and dead keys on all ways.
fn dead(s: &Side, other: &Side) -> Vec<Step> {
  let mut steps = vec![];
  for (vk, scan) in falling().map(keyed) {
    steps.extend([press(&s.none, vk, scan), more(&s.control, 0), dead_character(&other.none, 0xB4)]);
  }
  for i in 0..=DEAD.len() as u64 {
    let (vk, scan) = (0x31 + i, 0x02 + i);
    for b in [&s.none, &s.shift, &s.control_shift] {
      steps.extend([press(&s.none, vk, scan), alone(b, 0), release(b, vk, scan), alone(&other.none, 0)]);
    }
    steps.extend([press(&s.none, vk, scan), more(&s.none, 0), dead_character(&other.none, 0xB4)]);
    steps.extend(held(&s.none, (vk, scan), &[0x65], &s.control_shift, &joining()));
    steps.extend(held(&s.shift, (vk, scan), &[0x65, 0x66], &s.none, &Tables::new().no_ranges));
  }
  steps.extend([gain(&s.dead_down), loss(&s.dead_down)]);
  for (i, scan) in [0x52, 0x4F, 0x50, 0x51].into_iter().enumerate() {
    let vk = 0x60 + i as u64;
    steps.extend([
      release(&s.num_lock, vk, scan),
      alone(&other.none, 0),
      release(&s.none, vk, scan),
      alone(&s.none, 0),
    ]);
  }
  steps
}

/// Keys that are down when the focus comes and goes, all of them and one alone: handed out straight, and queued behind
/// an open message.
fn focus(s: &Side, other: &Side) -> Vec<Step> {
  let (vk, scan) = keyed(7);
  let mut steps = vec![gain(&s.down), loss(&s.down_caps)];
  steps.extend([release(&other.none, vk, scan), gain(&s.down_caps), alone(&other.none, 0)]);
  steps.extend([press(&other.none, vk, scan), loss(&s.down), alone(&other.control, 0)]);
  steps.extend(falling().map(|n| gain(&s.one[n - 1])));
  steps
}

/// Inside an open release: a press, a held press completed by a character, one by a dead character, a focus gain and a
/// release. All wait, and come out when the first release is finished; the next ones go to the same entries.
fn nested(s: &Side, other: &Side) -> Vec<Step> {
  let mut steps = vec![];
  for n in falling() {
    let (vk, scan) = keyed(n);
    steps.extend([
      release(&s.shift, vk, scan),
      press(&other.none, vk, scan),
      alone(&s.control, 1),
      press(&other.none, vk, scan),
      more(&s.none, 2),
      character(&other.none, 0x03),
      alone(&s.control, 3).on(&joining()),
      press(&other.none, vk, scan),
      more(&s.control, 4),
      dead_character(&other.none, 0xB4),
      gain(&s.one[n - 1]),
      bring(&s.caps, 0x105, vk, 0xC000_0001 | scan << 16),
      alone(&other.none, 7),
      alone(&other.none, 0),
    ]);
  }
  steps
}

/// Name and calls of each script.
pub fn scripts() -> Vec<(String, Vec<Step>)> {
  let a = Side::new("ascii", 106, false, ascii);
  let b = Side::new("not-ascii", 107, true, not_ascii);
  let mut out = vec![];
  for (s, other) in [(&a, &b), (&b, &a)] {
    for (name, steps) in [
      ("presses", presses(s, other)),
      ("releases", releases(s, other)),
      ("typed", typed(s, other)),
      ("by-control", by_control(s, other)),
      ("dead", dead(s, other)),
      ("focus", focus(s, other)),
      ("nested", nested(s, other)),
    ] {
      out.push((format!("{}-{name}", s.name), steps));
    }
  }
  out
}

#[cfg(test)]
mod tests {
  use super::{super::*, *};
  use areas::break_table::pieces;
  use kbtypes::ElementState;
  use std::collections::BTreeSet;

  #[test]
  fn texts() {
    let (joining, no_ranges) = (joining().ranges.unwrap(), Tables::new().no_ranges.ranges.unwrap());
    for (n, from) in (1..=TEXT_MOST).flat_map(|n| (0..48).map(move |from| (n, from))) {
      let (a, b) = (ascii(n, from), not_ascii(n, from));
      assert!(a.is_ascii() && b.chars().all(|c| c.is_ascii() == (n == 1)), "{a} {b}");
      for text in [a, b] {
        assert_eq!((text.len(), pieces(&joining, &text)), (n, 1), "{text}");
        assert_eq!(pieces(&no_ranges, &text), text.chars().count(), "{text}");
      }
    }
    let widths: BTreeSet<usize> = not_ascii(TEXT_MOST, 0).chars().map(char::len_utf8).collect();
    assert_eq!(widths, [2, 3, 4].into());
  }

  /// Every length, ASCII and not, in every field that a way can fill, handed out at once and behind others.
  #[test]
  fn reached() {
    let mut seen = BTreeSet::new();
    let mut dead = BTreeSet::new();
    for (name, calls) in scripts() {
      let script = Script { name, steps: steps(&mut Seeded::new(1), calls) };
      for a in answers(&script) {
        let Answer::Answered { events, .. } = a else { panic!("{}: refused", script.name) };
        for (i, e) in events.iter().enumerate() {
          let pressed = e.state == ElementState::Pressed;
          let character = |key: &Key| match key {
            Key::Character(t) => Some(t.clone()),
            _ => None,
          };
          let (logical, without) = (character(&e.logical_key), character(&e.key_without_modifiers));
          let fields = [&logical, &e.text, &e.text_with_all_modifiers, &without];
          for (field, text) in fields.into_iter().enumerate() {
            let Some(t) = text else { continue };
            seen.insert((e.synthetic, pressed, i > 0, field, t.is_ascii(), t.len()));
          }
          if let Key::Dead(c) = e.logical_key {
            dead.insert((e.synthetic, pressed, c, without.map(|t| t.len())));
          }
        }
      }
    }
    let lengths = (1..=TEXT_MOST).flat_map(|n| [(true, n), (false, n)]).filter(|l| *l != (false, 1));
    for (ascii, n) in lengths {
      for (synthetic, pressed, behind) in (0..8).map(|i| (i & 1 != 0, i & 2 != 0, i & 4 != 0)) {
        for field in 0..4 {
          let key = field == 0 || field == 3;
          // a release has no text; typed ones have at most 16 units, and come straight here
          let typed = field == 2 && !synthetic && (behind || ascii && n > UNITS);
          // the keys of a loss are all down, so the first is always the same
          let first = synthetic && !pressed && !behind;
          if (key || pressed) && !typed && !first {
            let here = (synthetic, pressed, behind, field, ascii, n);
            assert!(seen.contains(&here), "{here:?}");
          }
        }
      }
    }
    for c in DEAD {
      for pressed in [true, false] {
        assert!(dead.contains(&(false, pressed, c, c.map(char::len_utf8))), "{c:?}");
        assert!(dead.contains(&(true, pressed, c, None)), "{c:?}");
      }
    }
  }
}
