//! The shift that crates/station reads, and what it is to print: tao's answers.
use crate::examples::{
  boards::{Board, Boards},
  scripts::{alone, bring, lparam, press, refused, release, seeing, Step},
  tables::unicode,
};
use kbtypes::{
  Body, Code, ElementState, Event, Key, LayoutSpec, Location, Native, Peeked, Slot, CODE_NAMES, KEY_NAMES,
};
use std::sync::Arc;
use tao_oracle::run_script;

/// crates/station/data/names: the names of KeyCode's cases, then those of Key's, a line each.
pub fn names() -> String {
  CODE_NAMES.iter().chain(KEY_NAMES).map(|name| format!("{name}\n")).collect()
}

/// The layout of crates/station/data/accent.block, with the acute accent.
pub fn accent() -> LayoutSpec {
  (*Boards::new().german.layout).clone()
}

const NAMELESS: &str = "";

type Keys = &'static [(u8, u8)];

/// A line of the shift.
enum Line {
  Title(&'static str),
  Call(Step),
  Card,
}

struct Shift {
  lines: Vec<Line>,
  layout: Arc<LayoutSpec>,
}

/// The digits' keys, one down in each.
const DIGITS: [Keys; 10] = [
  &[(0x30, 0x80)],
  &[(0x31, 0x80)],
  &[(0x32, 0x80)],
  &[(0x33, 0x80)],
  &[(0x34, 0x80)],
  &[(0x35, 0x80)],
  &[(0x36, 0x80)],
  &[(0x37, 0x80)],
  &[(0x38, 0x80)],
  &[(0x39, 0x80)],
];

fn scan(digit: char) -> u64 {
  match digit {
    '0' => 0x0B,
    _ => u64::from(digit) - u64::from('0') + 1,
  }
}

impl Shift {
  fn board(&self, bytes: Keys) -> Board {
    Board { name: NAMELESS, layout_name: NAMELESS, layout: self.layout.clone(), bytes }
  }

  /// With that digit's key down.
  fn down(&self, digit: char) -> Board {
    self.board(DIGITS[digit.to_digit(10).unwrap() as usize])
  }

  fn up(&self) -> Board {
    self.board(&[])
  }

  fn add(&mut self, steps: impl IntoIterator<Item = Step>) {
    self.lines.extend(steps.into_iter().map(|s| Line::Call(s.on(&unicode()))));
  }

  /// The finish of a digit's press, and its character.
  fn type_digit(&mut self, digit: char, token: u32, character: u32) {
    let b = self.down(digit);
    let (vk, l) = (digit.into(), lparam(scan(digit)));
    self.add([
      seeing(&b, token, 0x102, vk, l),
      bring(&b, 0x102, vk, l),
      seeing(&b, character, 0x101, vk, 0xC000_0000 | l),
    ]);
  }

  fn press_digit(&mut self, digit: char) {
    self.add([press(&self.down(digit), digit.into(), scan(digit))]);
    self.type_digit(digit, 0, 0);
  }

  fn release_digit(&mut self, digit: char, next: Option<char>, token: u32) {
    let b = self.up();
    let end = match next {
      None => alone(&b, token),
      Some(n) => seeing(&b, token, 0x100, n.into(), lparam(scan(n))),
    };
    self.add([release(&b, digit.into(), scan(digit)), end]);
  }

  fn digits(&mut self, typed: &str) {
    let mut rest = typed.chars();
    while let Some(digit) = rest.next() {
      self.press_digit(digit);
      self.release_digit(digit, rest.clone().next(), 0);
    }
  }

  fn whole_card(&mut self) {
    self.lines.push(Line::Title("# a card from the scanner"));
    self.digits("89310410106543789301");
    self.lines.push(Line::Card);
  }

  fn card_with_focus(&mut self) {
    self.lines.push(Line::Title("# a card: the focus is lost while the key 4 is down, and gained when it is up"));
    self.digits("8931041010");
    self.press_digit('4');
    self.add([bring(&self.down('4'), 0x8, 0, 0), bring(&self.up(), 0x7, 0, 0)]);
    self.digits("378930265");
    self.lines.push(Line::Card);
  }

  fn card_with_nesting(&mut self) {
    self.lines.push(Line::Title("# a card: the release of 5 arrives while the press of 6 peeks, focus lost and gained while the release of 6 does"));
    let (six, up) = (self.down('6'), self.up());
    self.digits("8931041010");
    self.press_digit('5');
    self.add([press(&six, 0x36, 0x07)]);
    self.release_digit('5', None, 1);
    self.type_digit('6', 0, 0);
    self.add([release(&up, 0x36, 0x07), bring(&six, 0x8, 0, 0), bring(&six, 0x7, 0, 0), alone(&up, 0)]);
    self.digits("43789318");
    self.lines.push(Line::Card);
  }

  fn refusals(&mut self) {
    self
      .lines
      .push(Line::Title("# refused: a finish of another token than the latest, a dead character with no press held"));
    let b = self.up();
    self.add([
      release(&b, 0x31, 0x02),
      refused(10, alone(&b, 7)),
      refused(5, bring(&b, 0x103, 0x60, lparam(0x29))),
      alone(&b, 0),
    ]);
  }

  fn alt_gr(&mut self) {
    self.lines.push(Line::Title("# AltGr: the Control that Windows sends before it is fake, pressed and released"));
    let control = self.board(&[(0xA2, 0x80)]);
    let both = self.board(&[(0x11, 0x80), (0x12, 0x80), (0xA2, 0x80), (0xA5, 0x80)]);
    let up = self.up();
    self.add([
      press(&control, 0x11, 0x1D),
      seeing(&control, 0, 0x100, 0x12, 0x138_0001),
      press(&both, 0x12, 0xE038),
      alone(&both, 0),
      release(&both, 0x11, 0x1D),
      seeing(&both, 0, 0x101, 0x12, 0xC138_0001),
      release(&up, 0x12, 0xE038),
      alone(&up, 0),
    ]);
  }

  fn dead_key(&mut self) {
    self.lines.push(Line::Title("# a dead key, and the letter that it joins"));
    let (accent, letter, up) = (self.board(&[(0xDD, 0x80)]), self.board(&[(0x45, 0x80)]), self.up());
    self.add([
      press(&accent, 0xDD, 0x0D),
      seeing(&accent, 0, 0x103, 0xB4, lparam(0x0D)),
      bring(&accent, 0x103, 0xB4, lparam(0x0D)),
      release(&up, 0xDD, 0x0D),
      alone(&up, 0),
      press(&letter, 0x45, 0x12),
      seeing(&letter, 0, 0x102, 0xE9, lparam(0x12)),
      bring(&letter, 0x102, 0xE9, lparam(0x12)),
      alone(&letter, 0),
      release(&up, 0x45, 0x12),
      alone(&up, 0),
    ]);
  }
}

fn native(n: Native) -> String {
  match n {
    Native::Unidentified => "0:0".into(),
    Native::Windows(v) => format!("1:{v:x}"),
    Native::MacOS(v) => format!("2:{v:x}"),
    Native::Gtk(v) => format!("3:{v:x}"),
    Native::Android(v) => format!("4:{v:x}"),
  }
}

fn key(k: &Key) -> String {
  match k {
    Key::Character(t) => format!("\"{t}\""),
    Key::Unidentified(n) => format!("{} {}", KEY_NAMES[1], native(*n)),
    Key::Dead(None) => KEY_NAMES[2].into(),
    Key::Dead(Some(c)) => format!("{} {:04x}", KEY_NAMES[2], u32::from(*c)),
    Key::Named(place) => KEY_NAMES[usize::from(*place)].into(),
  }
}

fn text(t: &Option<Arc<str>>) -> String {
  t.as_ref().map_or("none".into(), |t| format!("\"{t}\""))
}

fn event(e: &Event) -> String {
  let code = match e.physical_key {
    Code::Named(place) => CODE_NAMES[usize::from(place)].into(),
    Code::Unidentified(n) => format!("{} {}", CODE_NAMES[0], native(n)),
  };
  let location = match e.location {
    Location::Standard => "standard",
    Location::Left => "left",
    Location::Right => "right",
    Location::Numpad => "numpad",
  };
  let state = if e.state == ElementState::Pressed { "pressed" } else { "released" };
  let repeat = if e.repeat { " repeat" } else { "" };
  let synthetic = if e.synthetic { " synthetic" } else { "" };
  format!(
    "    {code} {location} {state}{repeat}{synthetic}: key {}, text {}, with all modifiers {}, without modifiers {}\n",
    key(&e.logical_key),
    text(&e.text),
    text(&e.text_with_all_modifiers),
    key(&e.key_without_modifiers)
  )
}

fn message(m: Peeked) -> String {
  format!("{:x} {:02x} {:08x}", m.kind, m.wparam, m.lparam)
}

/// `message K W L` or `finish T, peeked ..`.
fn asked(body: Body) -> String {
  match body {
    Body::Open { kind, wparam, lparam } => format!("message {}", message(Peeked { kind, wparam, lparam })),
    Body::Finish { token, peeked } => format!("finish {token:x}, peeked {}", peeked.map_or("nothing".into(), message)),
  }
}

/// The shift, and its layouts in the order of their numbers in crates/station.
fn shift(us: &LayoutSpec) -> (Vec<Line>, [Arc<LayoutSpec>; 3]) {
  let mut flagged = us.clone();
  flagged.alt_gr = true;
  // a layout of its own
  flagged.id += 1000;
  let layouts = [us.clone(), flagged, accent()].map(Arc::new);
  let mut shift = Shift { lines: vec![], layout: layouts[0].clone() };
  shift.whole_card();
  shift.card_with_focus();
  shift.card_with_nesting();
  shift.refusals();
  shift.layout = layouts[1].clone();
  shift.alt_gr();
  shift.layout = layouts[2].clone();
  shift.dead_key();
  (shift.lines, layouts)
}

/// crates/station/stdin: the lines, with the layout and the keys before a call that has others than the one before.
fn input(lines: &[Line], layouts: &[Arc<LayoutSpec>]) -> String {
  let mut out = String::new();
  let mut layout = layouts[0].id;
  let mut down: Keys = &[];
  for line in lines {
    match line {
      Line::Title(title) => out += &format!("{title}\n"),
      Line::Card => out += "card\n",
      Line::Call(step) => {
        if step.board.layout.id != layout {
          layout = step.board.layout.id;
          out += &format!("layout {}\n", layouts.iter().position(|l| l.id == layout).unwrap());
        }
        if step.board.bytes != down {
          down = step.board.bytes;
          let keys: String = down.iter().map(|(vk, _)| format!(" {vk:02x}")).collect();
          out += &format!("keys{keys}\n");
        }
        out += &match step.body {
          Body::Finish { token, peeked: None } => format!("finish {token:x}\n"),
          Body::Finish { token, peeked: Some(m) } => format!("finish {token:x} {}\n", message(m)),
          open => format!("{}\n", asked(open)),
        };
      }
    }
  }
  out
}

/// crates/station/stdout.
fn output(lines: &[Line]) -> String {
  let asked_tao = |line: &Line| match line {
    Line::Call(step) if step.refused.is_none() => Some(step.call()),
    _ => None,
  };
  let calls: Vec<_> = lines.iter().filter_map(asked_tao).collect();
  let calls: Vec<_> = calls.iter().collect();
  let run = run_script(&calls, &vec![Slot::DefaultProcedure; calls.len()]);
  assert!(run.panicked.is_none() && run.problem.is_none(), "{:?} {:?}", run.panicked, run.problem);
  let mut answers = run.answers.into_iter().flatten();

  let mut out = String::new();
  let mut card = String::new();
  let mut open = vec![];
  for line in lines {
    let step = match line {
      Line::Title(title) => {
        out += &format!("{title}\n");
        continue;
      }
      Line::Card => {
        assert_eq!(card.len(), 20, "{card}");
        out += &format!("card \"{card}\"\n");
        card.clear();
        continue;
      }
      Line::Call(step) => step,
    };
    out += &asked(step.body);
    if let Some(number) = step.refused {
      out += &format!(": refused {number}\n");
      continue;
    }
    let a = answers.next().unwrap();
    match step.body {
      Body::Open { .. } => {
        let token = a.opened.then(|| a.snapshot.handed - 1);
        open.extend(token);
        out += &token.map_or(": opens none".into(), |t| format!(": token {t:x}"));
        out += match a.slot {
          Slot::DefaultProcedure => ", default procedure",
          Slot::Value(0) => ", result 0",
          Slot::Value(_) => ", another result",
        };
      }
      Body::Finish { token, .. } => assert_eq!(open.pop(), Some(token), "not the latest open message"),
    }
    out += "\n";
    for e in &a.events {
      out += &event(e);
      if e.state == ElementState::Pressed && !e.synthetic {
        card += e.text.as_deref().unwrap_or("");
      }
    }
  }
  assert!(answers.next().is_none() && open.is_empty());
  out
}

/// crates/station/stdin and crates/station/stdout.
pub fn input_and_output(us: &LayoutSpec) -> (String, String) {
  let (lines, layouts) = shift(us);
  (input(&lines, &layouts), output(&lines))
}
