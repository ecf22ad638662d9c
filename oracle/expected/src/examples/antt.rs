//! Keyboards, calls and events in the words of crates/session/specs.
use super::{boards::Board, scripts::Step, tables::Table};
use kbtypes::{Body, Code, ElementState, Event, Key, LayoutSpec, Location, Native, CODE_NAMES, KEY_NAMES};
use std::collections::BTreeMap;

/// `a ∷ b ∷ []`.
pub fn list(items: impl IntoIterator<Item = String>) -> String {
  items.into_iter().map(|i| i + " ∷ ").collect::<String>() + "[]"
}

/// In parentheses, unless it is one word.
fn inner(s: String) -> String {
  if s.contains(' ') {
    format!("({s})")
  } else {
    s
  }
}

fn hex(n: u64) -> String {
  format!("0x{n:02X}")
}

fn text(t: &str) -> String {
  list(t.bytes().map(|b| hex(b.into())))
}

fn opt_text(t: &Option<std::sync::Arc<str>>) -> String {
  t.as_ref().map_or("None".into(), |t| format!("Some ({})", text(t)))
}

fn native(n: Native) -> String {
  match n {
    Native::Unidentified => "native.Unidentified".into(),
    Native::Windows(c) => format!("(native.Windows {})", hex(c.into())),
    other => panic!("{other:?}"),
  }
}

fn code(c: Code) -> String {
  match c {
    Code::Named(p) => format!("code.{}", CODE_NAMES[usize::from(p)]),
    Code::Unidentified(n) => format!("code.Unidentified {}", native(n)),
  }
}

/// The name of the key at a place of tao's Key.
pub fn key_name(place: u16) -> String {
  format!("key-{}", KEY_NAMES[usize::from(place)])
}

fn key(k: &Key) -> String {
  match k {
    Key::Named(p) => format!("named {}", key_name(*p)),
    Key::Character(t) => format!("character ({})", text(t)),
    Key::Unidentified(n) => format!("unidentified {}", native(*n)),
    Key::Dead(None) => "dead".into(),
    Key::Dead(Some(c)) => format!("dead_char {}", hex(u32::from(*c).into())),
  }
}

/// The place of a named key.
pub fn place(k: &Key) -> Option<u16> {
  match k {
    Key::Named(p) => Some(*p),
    _ => None,
  }
}

/// The places of the named keys that a layout has.
pub fn places(l: &LayoutSpec) -> Vec<u16> {
  let listed = l.numlock_on.values().chain(l.numlock_off.values()).chain(l.keys.iter().flat_map(BTreeMap::values));
  l.non_char.iter().flatten().copied().chain(listed.filter_map(place)).collect()
}

/// A table of n cells by those that are not 0.
fn cells(n: usize, cells: impl Iterator<Item = u16>, name: impl Fn(u16) -> String) -> String {
  let set = cells.enumerate().filter(|(_, v)| *v != 0);
  let set = set.map(|(at, v)| format!("({}, {})", hex(at as u64), name(v)));
  format!("cells {n} {}", inner(list(set)))
}

fn vkeys(l: &BTreeMap<u8, Key>) -> String {
  list(l.iter().map(|(vk, k)| format!("record {{ key = {}; value = {} }}", hex((*vk).into()), key(k))))
}

/// By rising numbers of the codes, as in a block: an unidentified one comes first.
fn codes(l: &BTreeMap<Code, Key>) -> String {
  let (first, named): (Vec<_>, Vec<_>) = l.iter().partition(|(c, _)| matches!(c, Code::Unidentified(_)));
  let all = first.into_iter().chain(named);
  list(all.map(|(c, k)| format!("record {{ code = {}; value = {} }}", code(*c), key(k))))
}

pub fn layout(name: &str, l: &LayoutSpec) -> String {
  let plain = |v: u16| hex(v.into());
  let mut out = format!("abbrev pub {name} : Maps\n{name} =\n    record {{\n");
  let mut field = |name: &str, value: String| out += &format!("      {name} = {value};\n");
  field("has_alt_graph", l.alt_gr.to_string());
  field("non_char_keys", cells(256, l.non_char.iter().map(|k| k.unwrap_or(0)), key_name));
  field("scan_codes", cells(256, l.scan_of_vk.iter().copied(), plain));
  field("virtual_keys", cells(768, l.vk_of_scan.iter().flatten().copied(), plain));
  field("num_lock_on", vkeys(&l.numlock_on));
  field("num_lock_off", vkeys(&l.numlock_off));
  field("keys", list(l.keys.iter().map(|l| inner(codes(l)))));
  out + "    }\n"
}

pub fn board(b: &Board) -> String {
  let bytes = cells(256, b.state().iter().map(|b| u16::from(*b)), |v| hex(v.into()));
  format!("abbrev pub {0} : Keyboard\n{0} = record {{ layout = {1}; key_state = {bytes} }}\n", b.name, b.layout_name)
}

/// Its bytes, sixteen in a line.
pub fn table(t: &Table) -> String {
  let lines: Vec<String> = t.bytes.chunks(16).map(|l| l.iter().map(|b| hex((*b).into()) + " ∷ ").collect()).collect();
  let bytes = lines.join("\n    ") + "[]";
  let place = if lines.len() > 1 { "\n    " } else { " " };
  format!("-- {0}\nabbrev pub {1} : List ℕ\n{1} ={place}{bytes}\n", t.shows, t.name).replace(" \n", "\n")
}

pub fn step(s: &Step) -> String {
  let (b, t) = (s.board.name, s.table.name);
  let message = |kind: u32, wparam, lparam| format!("(message {} {} {})", hex(kind.into()), hex(wparam), hex(lparam));
  match s.body {
    Body::Open { kind, wparam, lparam } => format!("bring {b} {t} {}", message(kind, wparam, lparam)),
    Body::Finish { token, peeked } => {
      let peeked = peeked.map_or("None".into(), |p| format!("(Some {})", message(p.kind, p.wparam, p.lparam)));
      format!("finish {b} {t} {token} {peeked}")
    }
  }
}

pub fn event(e: &Event) -> String {
  let location = match e.location {
    Location::Standard => "at.Standard",
    Location::Left => "at.Left",
    Location::Right => "at.Right",
    Location::Numpad => "at.Numpad",
  };
  let state = match e.state {
    ElementState::Pressed => "Pressed",
    ElementState::Released => "Released",
  };
  [
    "key_event".into(),
    inner(code(e.physical_key)),
    inner(key(&e.logical_key)),
    inner(opt_text(&e.text)),
    location.into(),
    state.into(),
    e.repeat.to_string(),
    e.synthetic.to_string(),
    inner(opt_text(&e.text_with_all_modifiers)),
    inner(key(&e.key_without_modifiers)),
  ]
  .join(" ")
}

/// Runs of more than three equal events are written as `times`.
pub fn events(events: &[Event]) -> String {
  let runs: Vec<&[Event]> = events.chunk_by(|a, b| a == b).collect();
  runs.into_iter().rfold("[]".into(), |rest, run| match run.len() {
    1..=3 => run.iter().fold(String::new(), |s, e| s + &event(e) + " ∷ ") + &rest,
    n => format!("times {n} ({}) {}", event(&run[0]), inner(rest)),
  })
}
