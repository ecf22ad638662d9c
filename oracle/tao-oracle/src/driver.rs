//! Runs a script of calls through tao's own `process_message`. `Open` calls it; PeekMessageW goes
//! on reading the script, so an `Open` there is a nested call and a `Finish` ends the peek.
use crate::{
  convert,
  platform_impl::platform::{
    event_loop::ProcResult,
    keyboard::KeyEventBuilder,
    keyboard_layout::{Layout, LayoutCache, WindowsModifiers, LAYOUT_CACHE},
  },
  shim,
};
use kbtypes as t;
use std::{
  cell::{Cell, RefCell},
  collections::HashMap,
  panic::{catch_unwind, AssertUnwindSafe},
};
use windows::{
  env::{Env, Tables},
  Win32::{
    Foundation::{HWND, LPARAM, LRESULT, WPARAM},
    UI::WindowsAndMessaging::MSG,
  },
};

#[derive(Clone, Debug, PartialEq, Eq)]
pub struct OracleAnswer {
  /// For an Open: did process_message reach PeekMessageW?
  pub opened: bool,
  pub slot: t::Slot,
  pub events: Vec<t::Event>,
  pub snapshot: t::Snapshot,
}

#[derive(Debug, Default)]
pub struct OracleRun {
  /// One for each call of the script, in order (fewer if it stopped).
  pub answers: Vec<Option<OracleAnswer>>,
  /// tao panicked in this call.
  pub panicked: Option<(usize, String)>,
  /// Something the driver did not expect.
  pub problem: Option<String>,
}

struct Frame {
  open: usize,
  finish: Option<usize>,
  overwritten_at: u64,
  set_in_open: bool,
}

struct Driver<'a> {
  builder: KeyEventBuilder,
  calls: &'a [&'a t::Call],
  slots: &'a [t::Slot],
  pos: Cell<usize>,
  base: Cell<u32>,
  frames: RefCell<Vec<Frame>>,
  run: RefCell<OracleRun>,
  tables: &'a HashMap<u32, Box<Tables>>,
}

thread_local! {
  static CURRENT: Cell<*const Driver<'static>> = const { Cell::new(std::ptr::null()) };
  static TABLES: RefCell<HashMap<u32, Box<Tables>>> = RefCell::new(HashMap::new());
}

fn to_slot(r: &ProcResult) -> t::Slot {
  match r {
    ProcResult::DefWindowProc => t::Slot::DefaultProcedure,
    ProcResult::Value(LRESULT(v)) => t::Slot::Value(*v as i64),
  }
}
fn from_slot(s: t::Slot) -> ProcResult {
  match s {
    t::Slot::DefaultProcedure => ProcResult::DefWindowProc,
    t::Slot::Value(v) => ProcResult::Value(LRESULT(v as isize)),
  }
}

/// Puts a layout's maps into tao's own cache under its id.
pub fn install(spec: &t::LayoutSpec) {
  let mut cache = LAYOUT_CACHE.lock();
  let cache: &mut LayoutCache = &mut cache;
  if cache.layouts.contains_key(&(spec.id as isize)) {
    return;
  }
  let strings = &mut cache.strings;
  let mut key = |k: &t::Key| convert::key_back(strings, k);
  let numlock_on_keys = spec.numlock_on.iter().map(|(v, k)| (u16::from(*v), key(k))).collect();
  let numlock_off_keys = spec.numlock_off.iter().map(|(v, k)| (u16::from(*v), key(k))).collect();
  let keys = spec
    .keys
    .iter()
    .enumerate()
    .map(|(m, l)| {
      let l = l.iter().map(|(c, k)| (convert::code_back(*c), key(k))).collect();
      (WindowsModifiers::from_bits_truncate(m as u8), l)
    })
    .collect();
  let layout = Layout { hkl: spec.id as isize, numlock_on_keys, numlock_off_keys, keys, has_alt_graph: spec.alt_gr };
  cache.layouts.insert(spec.id as isize, layout);
}

/// Drops the cached layouts (not the interned strings, which tao itself never frees).
pub fn forget_layouts() {
  LAYOUT_CACHE.lock().layouts.clear();
  TABLES.with(|t| t.borrow_mut().clear());
}

pub(crate) fn tables_of(spec: &t::LayoutSpec) -> Tables {
  Tables { scan_of_vk: spec.scan_of_vk, vk_of_scan: spec.vk_of_scan }
}

impl<'a> Driver<'a> {
  fn set_env(&self, call: &t::Call) {
    let tables: *const Tables = &**self.tables.get(&call.layout.id).expect("layout installed");
    windows::env::set(Env {
      hkl: call.layout.id as isize,
      state: &*call.state,
      tables,
      peek: Some(peek_hook),
      to_unicode: None,
    });
    shim::set_non_char(&call.layout.non_char);
    // Pieces are counted behind the peek, so the table in force is then the finish's.
    unicode_segmentation::set_table(&call.table);
  }

  fn snapshot(&self) -> t::Snapshot {
    let v = self.builder.oracle_view().expect("a mutex is held across the cut");
    if v.entries.is_empty() {
      self.base.set(v.next_id);
    }
    let base = self.base.get();
    t::Snapshot {
      handed: v.next_id - base,
      entries: v.entries.iter().map(|(n, c)| (n - base, *c)).collect(),
      held: v.held,
    }
  }

  fn problem(&self, p: String) {
    let mut r = self.run.borrow_mut();
    if r.problem.is_none() {
      r.problem = Some(p);
    }
  }

  fn record(&self, i: usize, a: OracleAnswer) {
    let mut r = self.run.borrow_mut();
    if r.answers.len() <= i {
      r.answers.resize(i + 1, None);
    }
    r.answers[i] = Some(a);
  }

  /// Calls process_message for the Open at `i`.
  fn message(&self, i: usize) {
    let call = self.calls[i];
    let t::Body::Open { kind, wparam, lparam } = call.body else {
      self.problem(format!("call {i} is a finish with nothing open"));
      return;
    };
    self.set_env(call);
    let mut result = from_slot(self.slots[i]);
    self.frames.borrow_mut().push(Frame {
      open: i,
      finish: None,
      overwritten_at: shim::overwritten(),
      set_in_open: false,
    });
    let got = self.builder.process_message(
      HWND(std::ptr::null_mut()),
      kind,
      WPARAM(wparam as usize),
      LPARAM(lparam as isize),
      &mut result,
    );
    let set_since = shim::overwritten();
    let f = self.frames.borrow_mut().pop().unwrap();
    assert_eq!(f.open, i);
    let set_since = set_since != f.overwritten_at;
    let events: Vec<t::Event> = got.iter().map(convert::event).collect();
    let snapshot = self.snapshot();
    let slot = to_slot(&result);
    match f.finish {
      None => self.record(i, OracleAnswer { opened: false, slot, events, snapshot }),
      Some(n) => {
        if set_since {
          self.problem(format!("call {n}: result was set behind the peek"));
        }
        // The slot of the open half: the value is known only now, that it was set then is noted.
        let open_slot = if f.set_in_open { slot } else { self.slots[i] };
        if let Some(Some(a)) = self.run.borrow_mut().answers.get_mut(i) {
          a.slot = open_slot;
        }
        // A finish is lent a slot too; tao does not touch it behind the peek.
        self.record(n, OracleAnswer { opened: false, slot: self.slots[n], events, snapshot });
      }
    }
  }

  fn peek(&self, msg: &mut MSG) -> bool {
    let open = {
      let mut fs = self.frames.borrow_mut();
      let f = fs.last_mut().expect("peek outside a call");
      if f.finish.is_some() {
        drop(fs);
        self.problem("a second peek in one call".into());
        return false;
      }
      f.set_in_open = shim::overwritten() != f.overwritten_at;
      f.open
    };
    let snapshot = self.snapshot();
    self.record(open, OracleAnswer { opened: true, slot: self.slots[open], events: Vec::new(), snapshot });
    loop {
      let i = self.pos.get();
      if i >= self.calls.len() || self.run.borrow().problem.is_some() {
        self.problem("the script ends with a message open".into());
        return false;
      }
      self.pos.set(i + 1);
      match self.calls[i].body {
        t::Body::Open { .. } => self.message(i),
        t::Body::Finish { peeked, .. } => {
          self.set_env(self.calls[i]);
          let mut fs = self.frames.borrow_mut();
          let f = fs.last_mut().unwrap();
          f.finish = Some(i);
          f.overwritten_at = shim::overwritten();
          return match peeked {
            None => false,
            Some(p) => {
              msg.message = p.kind;
              msg.wParam = WPARAM(p.wparam as usize);
              msg.lParam = LPARAM(p.lparam as isize);
              // Nothing may depend on this.
              msg.time = 0x5A5A;
              true
            }
          };
        }
      }
    }
  }
}

fn peek_hook(msg: &mut MSG) -> bool {
  let d = CURRENT.with(|c| c.get());
  assert!(!d.is_null());
  unsafe { (*d).peek(msg) }
}

/// Runs calls, none of which the questions refuse, from a fresh builder. `slots` holds what the
/// `result` slot has before each call.
pub fn run_script(calls: &[&t::Call], slots: &[t::Slot]) -> OracleRun {
  assert_eq!(calls.len(), slots.len());
  TABLES.with(|tb| {
    {
      let mut tb = tb.borrow_mut();
      let mut last = u32::MAX;
      for c in calls {
        if c.layout.id != last && !tb.contains_key(&c.layout.id) {
          install(&c.layout);
          tb.insert(c.layout.id, Box::new(tables_of(&c.layout)));
        }
        last = c.layout.id;
      }
    }
    let tb = tb.borrow();
    let d = Driver {
      builder: KeyEventBuilder::default(),
      calls,
      slots,
      pos: Cell::new(0),
      base: Cell::new(0),
      frames: RefCell::new(Vec::new()),
      run: RefCell::new(OracleRun::default()),
      tables: &tb,
    };
    d.run.borrow_mut().answers.reserve(calls.len());
    CURRENT.with(|c| c.set(std::ptr::from_ref(&d).cast()));
    let r = catch_unwind(AssertUnwindSafe(|| {
      while d.pos.get() < calls.len() && d.run.borrow().problem.is_none() {
        let i = d.pos.get();
        d.pos.set(i + 1);
        d.message(i);
      }
    }));
    CURRENT.with(|c| c.set(std::ptr::null()));
    if let Err(e) = r {
      let what = e
        .downcast_ref::<String>()
        .cloned()
        .or_else(|| e.downcast_ref::<&str>().map(|s| s.to_string()))
        .unwrap_or_default();
      d.run.borrow_mut().panicked = Some((d.pos.get().saturating_sub(1), what));
    }
    d.run.into_inner()
  })
}

#[cfg(test)]
mod tests {
  use super::*;
  use std::sync::Arc;

  /// A release that arrives while a press peeks waits for it; both come out at the press's finish.
  #[test]
  fn nested_events_wait() {
    let layout = Arc::new(t::LayoutSpec::empty(76));
    let state = Arc::new([0u8; 256]);
    let call = |body| t::Call { body, state: state.clone(), layout: layout.clone(), table: Default::default() };
    let open = |kind, wparam, lparam| call(t::Body::Open { kind, wparam, lparam });
    let finish = |token| call(t::Body::Finish { token, peeked: None });
    let calls = [open(0x100, 0x41, 0x1E_0001), open(0x101, 0x42, 0xC030_0001), finish(1), finish(0)];
    let calls: Vec<&t::Call> = calls.iter().collect();
    let run = run_script(&calls, &[t::Slot::DefaultProcedure; 4]);
    assert!(run.panicked.is_none() && run.problem.is_none());
    let answers: Vec<OracleAnswer> = run.answers.into_iter().flatten().collect();
    let counts: Vec<(bool, usize)> = answers.iter().map(|a| (a.opened, a.events.len())).collect();
    assert_eq!(counts, [(true, 0), (true, 0), (false, 0), (false, 2)]);
    let states: Vec<t::ElementState> = answers[3].events.iter().map(|e| e.state).collect();
    assert_eq!(states, [t::ElementState::Pressed, t::ElementState::Released]);
    assert_eq!(answers[2].snapshot.entries, [(0, false), (1, true)]);
    assert_eq!(answers[3].snapshot, t::Snapshot { handed: 0, entries: vec![], held: None });
  }

  /// A peeked WM_QUIT: tao takes it as belonging to the press and holds a key that nobody completes; given as nothing peeked, the press comes out.
  #[test]
  fn quit_holds_the_press() {
    let layout = Arc::new(t::LayoutSpec::empty(78));
    let call = |body| t::Call { body, state: Arc::new([0; 256]), layout: layout.clone(), table: Default::default() };
    let open = call(t::Body::Open { kind: 0x100, wparam: 0x31, lparam: 0x2_0001 });
    let quit = call(t::Body::Finish { token: 0, peeked: Some(t::Peeked { kind: 0x12, wparam: 0, lparam: 0 }) });
    let last = |finish: &t::Call| {
      let run = run_script(&[&open, finish], &[t::Slot::DefaultProcedure; 2]);
      let answer = run.answers.into_iter().flatten().last().unwrap();
      (answer.events.len(), answer.snapshot.held.is_some())
    };
    assert_eq!(last(&quit), (0, true));
    assert_eq!(last(&quit.for_tao()), (1, false));
  }

  /// 103 with nothing held: tao panics behind add_pending, so the entry stays and every later event
  /// waits behind it for good.
  #[test]
  fn a_panic_wedges_the_queue() {
    let l = t::LayoutSpec::empty(77);
    install(&l);
    let tables = tables_of(&l);
    let state = [0u8; 256];
    windows::env::set(Env { hkl: 77, state: &state, tables: &tables, peek: Some(|_| false), to_unicode: None });
    shim::set_non_char(&l.non_char);
    let b = KeyEventBuilder::default();
    let send = |kind: u32| {
      let mut r = ProcResult::DefWindowProc;
      b.process_message(HWND(std::ptr::null_mut()), kind, WPARAM(0x31), LPARAM(0x2_0001), &mut r).len()
    };
    assert_eq!(send(0x100), 1);
    assert!(catch_unwind(AssertUnwindSafe(|| send(0x103))).is_err());
    assert_eq!(b.oracle_view().unwrap().entries, [(1, false)]);
    assert_eq!((send(0x100), send(0x101)), (0, 0));
    assert_eq!(b.oracle_view().unwrap().entries, [(1, false), (2, true), (3, true)]);
  }
}
