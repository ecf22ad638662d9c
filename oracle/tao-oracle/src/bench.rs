//! tao alone on a scanner burst: no script, no conversion, the peek answered from a cell.
use crate::{
  driver::{install, tables_of},
  platform_impl::platform::{event_loop::ProcResult, keyboard::KeyEventBuilder},
  shim,
};
use kbtypes as t;
use std::{cell::Cell, hint::black_box, sync::Arc, time::Instant};
use windows::{
  env::Env,
  Win32::{
    Foundation::{HWND, LPARAM, LRESULT, WPARAM},
    UI::WindowsAndMessaging::MSG,
  },
};

thread_local! { static NEXT: Cell<Option<(u32, isize)>> = const { Cell::new(None) }; }

fn peek(msg: &mut MSG) -> bool {
  match NEXT.with(|c| c.get()) {
    None => false,
    Some((k, l)) => {
      msg.message = k;
      msg.lParam = LPARAM(l);
      true
    }
  }
}

/// Scans the digits 0 to 9 over and over, `digits` in all: each a press, its character, its release. The press peeks the
/// character, the character the release, the release nothing. Gives the number of events (two for each digit).
pub fn scan(layout: &t::LayoutSpec, table: &Arc<t::BreakTable>, digits: usize) -> u64 {
  install(layout);
  let tables = tables_of(layout);
  let state = [0u8; 256];
  windows::env::set(Env {
    hkl: layout.id as isize,
    state: &state,
    tables: &tables,
    peek: Some(peek),
    to_unicode: None,
  });
  shim::set_non_char(&layout.non_char);
  unicode_segmentation::set_table(table);
  let b = KeyEventBuilder::default();
  let hwnd = HWND(std::ptr::null_mut());
  let mut events = 0u64;
  for d in (0..10).cycle().take(digits) {
    let scan: isize = if d == 0 { 0x0B } else { 1 + d as isize };
    let down = scan << 16 | 1;
    let up = down | 0xC000_0000;
    for (kind, w, l, next) in [
      (0x100, 0x30 + d, down, Some((0x102, down))),
      (0x102, 0x30 + d, down, Some((0x101, up))),
      (0x101, 0x30 + d, up, None),
    ] {
      NEXT.with(|c| c.set(next));
      let mut r = ProcResult::DefWindowProc;
      let out = b.process_message(hwnd, kind, WPARAM(w), LPARAM(l), &mut r);
      events += out.len() as u64;
      black_box(&out);
      black_box(matches!(r, ProcResult::Value(LRESULT(0))));
    }
  }
  events
}

/// Runs `rounds` times ten digits. Gives nanoseconds per message and the number of events.
pub fn scanner_burst(layout: &t::LayoutSpec, table: &Arc<t::BreakTable>, rounds: u32) -> (f64, u64) {
  let start = Instant::now();
  let events = scan(layout, table, 10 * rounds as usize);
  let ns = start.elapsed().as_nanos() as f64 / (f64::from(rounds) * 30.0);
  (ns, events)
}

#[cfg(test)]
mod tests {
  #[test]
  fn every_digit_is_pressed_and_released() {
    assert_eq!(super::scanner_burst(&kbtypes::LayoutSpec::empty(78), &Default::default(), 7).1, 140);
  }
}
