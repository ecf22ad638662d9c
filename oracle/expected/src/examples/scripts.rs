//! The examples: what each stands for, and its calls.
use super::{
  boards::{Board, Boards},
  tables::{small, Table, Tables},
};
use kbtypes::{Body, Call, Peeked};

/// A call on a keyboard with a break table, and the number with which docs/SCOPE.md, 6, refuses it. tao is not given a
/// refused call.
#[derive(Clone)]
pub struct Step {
  pub board: Board,
  pub table: Table,
  pub body: Body,
  pub refused: Option<u8>,
}

impl Step {
  pub fn call(&self) -> Call {
    // 1 to 3, which come before it, are not put to the test here
    assert_eq!(self.table.ranges.is_none(), self.refused == Some(11), "{}", self.table.name);
    let table = self.table.ranges.clone().unwrap_or_default();
    Call { body: self.body, state: self.board.state(), layout: self.board.layout.clone(), table }
  }

  /// The same with another table.
  pub fn on(self, table: &Table) -> Step {
    Step { table: table.clone(), ..self }
  }
}

/// Where an example begins.
pub enum Start {
  Fresh,
  /// Behind these calls: a press (100) of 31 that is open, and `waiting` releases of 31 that wait behind it.
  Behind {
    calls: Vec<Step>,
    waiting: usize,
  },
}

pub struct Example {
  pub name: &'static str,
  /// What it shows, for the comment above it.
  pub shows: &'static str,
  pub start: Start,
  pub steps: Vec<Step>,
}

pub fn step(board: &Board, body: Body) -> Step {
  Step { board: board.clone(), table: small(), body, refused: None }
}

/// A call that brings a message.
pub fn bring(board: &Board, kind: u32, wparam: u64, lparam: u64) -> Step {
  step(board, Body::Open { kind, wparam, lparam })
}

/// The lParam of a press of this scan code; one on another page than 00 is extended.
pub fn lparam(scan: u64) -> u64 {
  (scan & 0xFF) << 16 | u64::from(scan > 0xFF) << 24 | 1
}

pub fn press(board: &Board, vk: u64, scan: u64) -> Step {
  bring(board, 0x100, vk, lparam(scan))
}

pub fn release(board: &Board, vk: u64, scan: u64) -> Step {
  bring(board, 0x101, vk, 0xC000_0000 | lparam(scan))
}

pub fn character(board: &Board, code: u64) -> Step {
  bring(board, 0x102, code, lparam(0x02))
}

pub fn dead_character(board: &Board, code: u64) -> Step {
  bring(board, 0x103, code, lparam(0x0D))
}

pub fn gain(board: &Board) -> Step {
  bring(board, 0x7, 0, 0)
}

pub fn loss(board: &Board) -> Step {
  bring(board, 0x8, 0, 0)
}

/// A finish with nothing peeked.
pub fn alone(board: &Board, token: u32) -> Step {
  step(board, Body::Finish { token, peeked: None })
}

/// A finish with a message peeked.
pub fn seeing(board: &Board, token: u32, kind: u32, wparam: u64, lparam: u64) -> Step {
  step(board, Body::Finish { token, peeked: Some(Peeked { kind, wparam, lparam }) })
}

/// A finish with a character message peeked.
pub fn more(board: &Board, token: u32) -> Step {
  seeing(board, token, 0x102, 0x31, lparam(0x02))
}

/// WM_QUIT.
pub const QUIT: u32 = 0x12;

/// A finish with a message of the key AltGr peeked.
pub fn before_alt_gr(board: &Board, token: u32, kind: u32) -> Step {
  seeing(board, token, kind, 0x12, lparam(0xE038))
}

pub fn refused(number: u8, step: Step) -> Step {
  Step { refused: Some(number), ..step }
}

fn example(name: &'static str, shows: &'static str, steps: Vec<Step>) -> Example {
  Example { name, shows, start: Start::Fresh, steps }
}

/// A press of 31 that is held, then steps.
pub fn held(board: &Board, steps: Vec<Step>) -> Vec<Step> {
  [press(board, 0x31, 0x02), more(board, 0)].into_iter().chain(steps).collect()
}

/// A press of 31 and the characters that follow it, the last with nothing behind it.
pub fn typed(board: &Board, codes: &[u64]) -> Vec<Step> {
  let mut steps = held(board, vec![]);
  for (i, c) in codes.iter().enumerate() {
    steps.push(character(board, *c));
    steps.push(if i + 1 < codes.len() { more(board, 0) } else { alone(board, 0) });
  }
  steps
}

/// Several such, one behind the other.
fn texts(board: &Board, all: &[&[u64]]) -> Vec<Step> {
  all.iter().flat_map(|codes| typed(board, codes)).collect()
}

pub fn examples(b: &Boards, t: &Tables) -> Vec<Example> {
  let Tables { no_ranges, no_bytes, touching, class_14 } = t;
  let Boards {
    us,
    us_control,
    us_shift,
    us_busy,
    us_num_lock,
    us_cancel,
    german,
    german_alt_gr,
    german_typing,
    odd,
    moved,
  } = b;
  let mut all = vec![
    // ---- what comes most
    example("digit", "a digit from the scanner: press, character, release", {
      let mut steps = held(us, vec![character(us, 0x31), alone(us, 0)]);
      steps.extend([release(us, 0x31, 0x02), alone(us, 0)]);
      steps
    }),
    example(
      "surrogate_pair",
      "a surrogate pair in two character messages is one text",
      held(us, vec![character(us, 0xD83D), more(us, 0), character(us, 0xDE00), alone(us, 0)]),
    ),
    example(
      "dead_key_and_letter",
      "a dead key, then a letter that it joins",
      vec![
        press(german, 0xDD, 0x0D),
        seeing(german, 0, 0x103, 0xB4, lparam(0x0D)),
        dead_character(german, 0xB4),
        release(german, 0xDD, 0x0D),
        alone(german, 0),
        press(german, 0x45, 0x12),
        more(german, 0),
        character(german, 0xE9),
        alone(german, 0),
      ],
    ),
    example(
      "alt_gr",
      "AltGr: the Control that Windows adds before it is fake, pressed and released",
      vec![
        press(german_alt_gr, 0x11, 0x1D),
        before_alt_gr(german_alt_gr, 0, 0x100),
        press(german_alt_gr, 0x12, 0xE038),
        alone(german_alt_gr, 0),
        bring(german_alt_gr, 0x105, 0x11, 0xE01D_0001),
        seeing(german_alt_gr, 0, 0x101, 0x12, 0xC138_0001),
        release(german, 0x12, 0xE038),
        alone(german, 0),
      ],
    ),
    example(
      "focus_inside",
      "focus lost and gained while a press peeks: all come out at its finish, the press first",
      vec![press(us, 0x31, 0x02), loss(us_busy), gain(us_busy), alone(us, 0)],
    ),
    // ---- WM_QUIT peeked; tao is shown nothing there (Body::for_tao)
    example(
      "quit_behind_press",
      "a peeked WM_QUIT counts as nothing peeked: the press comes out, also the Control that an AltGr message would make fake; 10012 is another kind, so the press is held",
      vec![
        press(us, 0x31, 0x02),
        seeing(us, 0, QUIT, 0, 0),
        press(german_alt_gr, 0x11, 0x1D),
        before_alt_gr(german_alt_gr, 0, QUIT),
        press(us, 0x31, 0x02),
        seeing(us, 0, 0x1_0012, 0, 0),
        dead_character(us, 0xB4),
      ],
    ),
    example(
      "quit_behind_release",
      "a release with WM_QUIT peeked is written: its fake test sees nothing either; with 10012 it is fake",
      vec![
        release(german_alt_gr, 0x11, 0x1D),
        before_alt_gr(german_alt_gr, 0, QUIT),
        release(german_alt_gr, 0x11, 0x1D),
        before_alt_gr(german_alt_gr, 0, 0x1_0012),
      ],
    ),
    example(
      "quit_behind_character",
      "a character with WM_QUIT peeked is the last one, inside a press that is still open too",
      vec![
        press(us, 0x31, 0x02),
        more(us, 0),
        character(us, 0x31),
        seeing(us, 0, QUIT, 0x102, lparam(0x02)),
        press(us, 0x0D, 0x1C),
        press(us, 0x31, 0x02),
        more(us, 1),
        character(us, 0x31),
        seeing(us, 2, QUIT, 0, 0),
        seeing(us, 0, QUIT, 0, 0),
      ],
    ),
    // ---- the mark of a held press: typed text may become its logical key
    example(
      "enter",
      "a typed character becomes the logical key only of a key whose layout answer is a character",
      vec![press(us, 0x0D, 0x1C), more(us, 0), character(us, 0x0D), alone(us, 0)],
    ),
    example(
      "dead_key_and_text",
      "a dead key that text follows stays dead",
      vec![press(german, 0xDD, 0x0D), more(german, 0), character(german, 0x27), alone(german, 0)],
    ),
    example(
      "control_at_press",
      "Control at the press's finish only: the layout's key stands, the text is the typed one",
      vec![press(us, 0x31, 0x02), more(us_control, 0), character(us, 0x78), alone(us, 0)],
    ),
    example(
      "control_at_character",
      "Control at the last character's finish only: the text is the layout's",
      held(us, vec![character(us, 0x11), alone(us_control, 0)]),
    ),
    example(
      "bare_control",
      "'unless Control was on' at a press is the bare Control bit, whatever Alt and the AltGr flag say",
      vec![press(german, 0x45, 0x12), alone(german_alt_gr, 0)],
    ),
    example(
      "alt_gr_text",
      "Control with Alt does not count at the last character on an AltGr layout: the typed text stands",
      vec![press(german_alt_gr, 0x45, 0x12), more(german_alt_gr, 0), character(german_alt_gr, 0xE9), alone(german_alt_gr, 0)],
    ),
    example(
      "unpaired",
      "a unit without its pair is no text, so the key is unidentified with its scan code",
      held(us, vec![character(us, 0xD83D), alone(us, 0)]),
    ),
    example(
      "unpaired_behind_letter",
      "a unit without its pair leaves no text at all, of the letter before it neither",
      held(us, vec![character(us, 0x61), more(us, 0), character(us, 0xD83D), alone(us, 0)]),
    ),
    example(
      "dead_character_behind_text",
      "a dead character behind typed units: they are only the text with all modifiers",
      held(us, vec![character(us, 0x61), more(us, 0), dead_character(us, 0xB4)]),
    ),
    example(
      "dead_without_character",
      "a dead key that has no character: without modifiers unidentified, with no native code",
      vec![press(german, 0xDE, 0x28), alone(german, 0)],
    ),
    example(
      "dead_at_focus",
      "a dead key without modifiers stays dead in a focus event",
      vec![gain(german_typing)],
    ),
    example(
      "no_text",
      "a character key without text is unidentified with its scan code, found by the virtual key where it is 00",
      vec![press(us, 0x31, 0x02), alone(us, 0), press(us, 0x31, 0x00), alone(us, 0)],
    ),
    // ---- the layout
    example(
      "listed_unidentified",
      "an unidentified key in a list ends the search and keeps its own native code",
      vec![press(odd, 0x31, 0x02), alone(odd, 0)],
    ),
    example(
      "release_key",
      "a release has no texts; its logical key is the layout's",
      vec![release(us_shift, 0x31, 0x02), alone(us_shift, 0)],
    ),
    example(
      "toggles_at_focus",
      "a focus event knows the Caps Lock toggle and not Shift; Caps Lock is first, keys without scan code are passed over",
      vec![gain(us_shift), gain(us_busy), loss(us_busy)],
    ),
    example(
      "pause_at_focus",
      "with Control on the code Pause is the key Pause in a press and a release, and not in a focus event",
      vec![
        gain(us_cancel),
        press(us_cancel, 0x03, 0xE046),
        alone(us_cancel, 0),
        release(us_cancel, 0x03, 0xE046),
        alone(us_cancel, 0),
      ],
    ),
    example(
      "num-lock",
      "the key without modifiers is always the Num Lock off list's, in a focus event too",
      vec![release(us_num_lock, 0x60, 0x52), alone(us_num_lock, 0), gain(us_num_lock)],
    ),
    example(
      "page_e1",
      "page E1 counts as extended for the location",
      vec![release(odd, 0x0D, 0x00), alone(odd, 0)],
    ),
    example(
      "menu_and_above",
      "the Num Lock lists are asked even for VK_MENU; 112 is not VK_MENU, and nothing is asked for a virtual key above FF",
      vec![
        release(odd, 0x12, 0x38),
        alone(odd, 0),
        release(odd, 0x112, 0x38),
        alone(odd, 0),
        release(odd, 0x131, 0x02),
        alone(odd, 0),
        release(odd, 0x1_0031, 0x00),
        alone(odd, 0),
        release(odd, 0x131, 0x00),
        alone(odd, 0),
      ],
    ),
    example(
      "unlisted_code",
      "an unlisted code that a list has is found",
      vec![release(odd, 0x07, 0x7F), alone(odd, 0)],
    ),
    // ---- character codes
    example(
      "wide_surrogate",
      "the surrogate test reads all of wParam, the scalar its low 32 bits: 10000D800 is two zero units",
      held(us, vec![character(us, 0x1_0000_D800), alone(us, 0)]),
    ),
    example(
      "zero_units",
      "a code that is no scalar is two zero units, and they are a text; 100000061 is a",
      held(us, vec![character(us, 0x11_0000), more(us, 0), character(us, 0x1_0000_0061), alone(us, 0)]),
    ),
    // ---- pieces: by the table of the finish that completes the last character
    example(
      "one_piece",
      "CR LF is one piece, and so is a letter with marks: the typed text is the logical key",
      texts(us, &[&[0x0D, 0x0A], &[0x65, 0x301], &[0x65, 0x301, 0x36F]]),
    ),
    example(
      "several-pieces",
      "CR LF with a mark behind it is several pieces: the layout's key stands",
      typed(us, &[0x0D, 0x0A, 0x301]),
    ),
    example(
      "no_ranges_of_class",
      "classes come from the table alone: with no ranges CR LF is two pieces, and so are a letter and a mark",
      texts(us, &[&[0x0D, 0x0A], &[0x65, 0x301]]).into_iter().map(|s| s.on(no_ranges)).collect(),
    ),
    example(
      "joined_pictographs",
      "two pictographs with a ZWJ between them are one piece (GB11), with an Extend before the ZWJ too",
      texts(us, &[&[0x1_F468, 0x200D, 0x1_F469], &[0x1_F468, 0x1_F3FB, 0x200D, 0x1_F469]]),
    ),
    example(
      "two_joiners",
      "with two ZWJ between them, or with a letter before the one, they are not: GB11's Extend* holds no ZWJ",
      texts(us, &[&[0x1_F468, 0x200D, 0x200D, 0x1_F469], &[0x61, 0x200D, 0x1_F469]]),
    ),
    example(
      "flags",
      "two regional indicators are one piece, one and a half flags are two (GB12), and so is a flag behind a letter (GB13)",
      texts(us, &[&[0x1_F1E9, 0x1_F1EA], &[0x1_F1E9, 0x1_F1EA, 0x1_F1E9], &[0x61, 0x1_F1E9, 0x1_F1EA]]),
    ),
    example(
      "syllables",
      "a Hangul syllable in three parts is one piece (GB6 to GB8), one with its vowel last is two",
      texts(us, &[&[0x1100, 0x1161, 0x11A8], &[0xAC00, 0x11A8], &[0x1100, 0x11A8, 0x1161]]),
    ),
    example(
      "conjunct",
      "a consonant behind 094D is a piece of its own: GB9c is no part of the rules",
      typed(us, &[0x915, 0x94D, 0x937]),
    ),
    example(
      "around_a_letter",
      "a letter and a SpacingMark are one piece (GB9a), a Prepend and a letter too (GB9b), but not with LF (GB5)",
      texts(us, &[&[0x915, 0x903], &[0x600, 0x31], &[0x600, 0x0A]]),
    ),
    example(
      "table_of_the_last_finish",
      "the table that counts is that of the finish that completes the last character, not those before it",
      {
        let mut steps = typed(us, &[0x0D, 0x0A]);
        let last = steps.pop().unwrap().on(no_ranges);
        steps.push(last);
        let mut other: Vec<Step> = typed(us, &[0x0D, 0x0A]).into_iter().map(|s| s.on(no_ranges)).collect();
        let last = other.pop().unwrap().on(&small());
        steps.extend(other);
        steps.push(last);
        steps
      },
    ),
    // ---- what is read when
    example(
      "wide_kind",
      "kinds have 32 bits: 10100 is no key message, so the press is held, and 10102 is no character",
      vec![
        press(us, 0x31, 0x02),
        seeing(us, 0, 0x1_0100, 0x31, lparam(0x02)),
        character(us, 0x31),
        seeing(us, 0, 0x1_0102, 0x31, lparam(0x02)),
        bring(us, 0x1_0100, 0x31, lparam(0x02)),
      ],
    ),
    example(
      "close_window",
      "104 with F4 is ignored by its whole wParam, any other press is not; a repeat is told by bits 30 and 31",
      vec![
        bring(us, 0x104, 0x73, lparam(0x3E)),
        bring(us, 0x104, 0x1_0073, 0x4000_0000 | lparam(0x3E)),
        alone(us, 0),
        bring(us, 0x100, 0x73, lparam(0x3E)),
        alone(us, 0),
      ],
    ),
    example(
      "press_by_finish",
      "a press's scan code and location go by the layout of its finish",
      vec![press(odd, 0xB3, 0x00), alone(moved, 0)],
    ),
    example(
      "release_by_open",
      "a release is wholly kept from its open, its keys' texts too",
      vec![release(us, 0x31, 0x00), alone(moved, 0)],
    ),
    example(
      "release_fake_by_finish",
      "of a release's fake test only the AltGr flag is the finish's",
      vec![
        release(us, 0x11, 0x1D),
        before_alt_gr(german, 0, 0x101),
        release(german, 0x11, 0x1D),
        before_alt_gr(us, 0, 0x101),
      ],
    ),
    example(
      "release_fake_any_kind",
      "a release is fake whatever kind is peeked, a press only with a key message",
      vec![
        release(german, 0x11, 0x1D),
        before_alt_gr(german, 0, 0x0),
        press(german, 0x11, 0x1D),
        before_alt_gr(german, 0, 0x102),
        dead_character(german, 0xB4),
      ],
    ),
    example(
      "fake_by_lparam",
      "the fake test reads the peeked lParam alone: scan code 00 of the virtual key A5, whose code is E038, is not looked up",
      vec![release(german, 0x11, 0x1D), seeing(german, 0, 0x101, 0xA5, 0xC100_0001)],
    ),
    example(
      "fake_control_alone",
      "a key that is not Control is never fake",
      vec![
        press(german, 0x0D, 0x1C),
        before_alt_gr(german, 0, 0x100),
        release(german, 0x0D, 0x1C),
        before_alt_gr(german, 0, 0x100),
      ],
    ),
    // ---- nesting
    example(
      "nested_press_completed",
      "a character's finish completes what is held then: a nested press, with none of the units typed before it",
      held(us, vec![character(us, 0x61), press(us, 0x45, 0x12), more(us, 1), alone(us, 0)]),
    ),
    example(
      "nested_dead_character",
      "a nested 103 took the held press: the character's finish gives nothing, and what waits is handed out",
      held(us, vec![character(us, 0x61), dead_character(us, 0xB4), alone(us, 0)]),
    ),
    example(
      "outer_press_forgets",
      "the finish of an outer press forgets the press that a nested call put on hold, its units too",
      vec![
        press(us, 0x31, 0x02),
        press(us, 0x45, 0x12),
        more(us, 1),
        character(us, 0x65),
        more(us, 2),
        alone(us, 0),
        character(us, 0x65),
      ],
    ),
    example(
      "fake_press_forgets",
      "a fake press forgets the held press",
      held(german, vec![press(german, 0x11, 0x1D), before_alt_gr(german, 0, 0x104), character(german, 0x31)]),
    ),
    example(
      "dropped_first",
      "dropping the first entry hands out what waits behind it",
      vec![
        press(german, 0x11, 0x1D),
        release(german, 0x31, 0x02),
        alone(german, 1),
        press(german, 0x0D, 0x1C),
        alone(german, 2),
        before_alt_gr(german, 0, 0x100),
      ],
    ),
    example(
      "nested_order",
      "a nested event comes out behind the outer one, in the order of arrival",
      vec![
        release(us, 0x0D, 0x1C),
        release(us, 0x31, 0x02),
        release(us, 0x45, 0x12),
        alone(us, 2),
        alone(us, 1),
        alone(us, 0),
      ],
    ),
    example(
      "held_through_focus",
      "focus messages and releases leave the held press",
      held(us, vec![gain(us), release(us, 0x45, 0x12), alone(us, 0), loss(us), character(us, 0x31), alone(us, 0)]),
    ),
    example(
      "no_token_kept",
      "103 and 107 on an empty queue leave no token handed out",
      held(us, vec![bring(us, 0x107, 0xB4, lparam(0x0D)), release(us, 0x45, 0x12), alone(us, 0)]),
    ),
    // ---- refusals, which are those of docs/SCOPE.md, 6: tao panics at 5 and has no limits
    example(
      "nothing_held",
      "a 103 with no press held is refused 5, a 102 is ignored",
      vec![refused(5, dead_character(us, 0xB4)), refused(5, bring(us, 0x107, 0, 0)), character(us, 0x31)],
    ),
    example(
      "table_refused",
      "a table that is none is refused 11, whatever the call is: an open, a finish, an ignored message, a focus change",
      vec![
        refused(11, press(us, 0x31, 0x02).on(no_bytes)),
        press(us, 0x31, 0x02),
        refused(11, more(us, 0).on(touching)),
        refused(11, alone(us, 7).on(class_14)),
        more(us, 0).on(no_ranges),
        refused(11, bring(us, QUIT, 0, 0).on(class_14)),
        refused(11, gain(us_busy).on(no_bytes)),
        character(us, 0x31),
        refused(11, alone(us, 0).on(no_bytes)),
        refused(11, dead_character(us, 0xB4).on(touching)),
        alone(us, 0),
      ],
    ),
    example("eight_open", "with eight open a focus message, a 103 and ignored ones pass, and a ninth open is refused 6", {
      let mut steps = held(us, (0..8).map(|_| release(us, 0x31, 0x02)).collect());
      steps.extend([
        refused(6, character(us, 0x31)),
        gain(us_control),
        dead_character(us, 0xB4),
        character(us, 0x31),
        bring(us, 0x104, 0x73, lparam(0x3E)),
        refused(6, press(us, 0x31, 0x02)),
        refused(6, release(us, 0x31, 0x02)),
      ]);
      steps.extend((0..8).rev().map(|token| alone(us, token)));
      steps
    }),
    example("sixteen_units", "sixteen units pass, with the seventeenth the call is refused 9; so are fifteen and two", {
      let mut steps = held(us, vec![]);
      for n in 0..16 {
        steps.extend([character(us, 0x61), more(us, 0)]);
        if n == 14 {
          steps.push(refused(9, character(us, 0x1_F600)));
        }
      }
      steps.extend([
        refused(9, character(us, 0x61)),
        refused(9, character(us, 0xD83D)),
        bring(us, 0x107, 0xB4, lparam(0x0D)),
      ]);
      steps
    }),
    example(
      "latest_token",
      "only the latest open message can be finished; a refused call changes nothing",
      vec![
        refused(10, alone(us, 0)),
        release(us, 0x0D, 0x1C),
        release(us, 0x31, 0x02),
        refused(10, alone(us, 0)),
        refused(10, alone(us, 2)),
        alone(us, 1),
        refused(10, alone(us, 1)),
        alone(us, 0),
        refused(10, alone(us, 0)),
      ],
    ),
  ];
  all.push(Example {
    name: "entries",
    shows:
      "behind a press and 254 releases inside it: 256 entries pass, 257 are refused 7; focus counts the events that it would write; one call hands out all 256",
    start: {
      let mut calls = vec![press(us, 0x31, 0x02)];
      (1..=254).for_each(|token| calls.extend([release(us, 0x31, 0x02), alone(us, token)]));
      Start::Behind { calls, waiting: 254 }
    },
    steps: vec![
      refused(7, gain(us_shift)),
      gain(us_control),
      gain(us),
      refused(7, loss(us_control)),
      refused(7, release(us, 0x31, 0x02)),
      alone(us, 0),
      release(us, 0x31, 0x02),
      alone(us, 0),
    ],
  });
  all.push(Example {
    name: "tokens",
    shows: "behind a press and 4,094 fakes inside it: the 4,096th token passes, the 4,097th is refused 8; focus without an event passes; tokens restart",
    start: {
      let mut calls = vec![press(us, 0x31, 0x02)];
      (1..4095).for_each(|token| calls.extend([release(german, 0x11, 0x1D), before_alt_gr(german, token, 0x101)]));
      Start::Behind { calls, waiting: 0 }
    },
    steps: vec![
      refused(8, gain(us_shift)),
      release(us, 0x31, 0x02),
      refused(8, gain(us_control)),
      gain(us),
      alone(us, 4095),
      refused(8, release(us, 0x31, 0x02)),
      alone(us, 0),
      release(us, 0x31, 0x02),
      alone(us, 0),
    ],
  });
  all
}
