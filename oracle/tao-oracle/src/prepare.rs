//! tao's own prepare_layout over recorded answers, as a LayoutSpec.
use crate::{convert, lookups, platform_impl::platform::keyboard_layout::oracle_prepare_layout};
use kbtypes as t;
use std::cell::RefCell;
use windows::{
  env::{Env, Tables},
  Win32::UI::Input::KeyboardAndMouse::HKL,
};

/// Answers one ToUnicodeEx call: virtual key, scan code, key state, room for the units.
pub type Answers = Box<dyn FnMut(u32, u32, &[u8; 256], &mut [u16]) -> i32>;

thread_local! { static ANSWERS: RefCell<Option<Answers>> = const { RefCell::new(None) }; }

fn hook(vk: u32, scan: u32, state: &[u8; 256], out: &mut [u16]) -> i32 {
  ANSWERS.with(|a| a.borrow_mut().as_mut().expect("answers set")(vk, scan, state, out))
}

/// `handle` is the layout handle (its low ten bits the primary language), `id` the new spec's id.
pub fn prepare(
  id: u32,
  handle: usize,
  scan_of_vk: [u16; 256],
  vk_of_scan: [[u16; 256]; 3],
  answers: Answers,
) -> t::LayoutSpec {
  let tables = Tables { scan_of_vk, vk_of_scan };
  let state = [0u8; 256];
  let before = windows::env::get();
  ANSWERS.with(|a| *a.borrow_mut() = Some(answers));
  windows::env::set(Env { hkl: handle as isize, state: &state, tables: &tables, peek: None, to_unicode: Some(hook) });
  let l = oracle_prepare_layout(HKL(handle as _));
  windows::env::set(before);
  ANSWERS.with(|a| *a.borrow_mut() = None);
  let mut s = t::LayoutSpec::empty(id);
  s.alt_gr = l.has_alt_graph;
  for v in 0..256u16 {
    s.non_char[v as usize] = lookups::non_char(v, (handle & 0x3FF) as u16, l.has_alt_graph);
  }
  s.scan_of_vk = scan_of_vk;
  s.vk_of_scan = vk_of_scan;
  let list = |m: &std::collections::HashMap<u16, crate::keyboard::Key<'static>>| {
    m.iter().map(|(v, k)| (u8::try_from(*v).expect("virtual key"), convert::key(k))).collect()
  };
  s.numlock_on = list(&l.numlock_on_keys);
  s.numlock_off = list(&l.numlock_off_keys);
  for (m, keys) in &l.keys {
    s.keys[m.bits() as usize] = keys.iter().map(|(c, k)| (convert::code(c), convert::key(k))).collect();
  }
  s
}
