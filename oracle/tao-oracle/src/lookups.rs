//! tao's lookups, asked one at a time.
use crate::{
  convert,
  driver::{install, tables_of},
  keyboard::{KeyCode, NativeKeyCode},
  platform_impl::platform::{
    keyboard::oracle_get_location,
    keyboard_layout::{oracle_vkey_to_non_char_key, WindowsModifiers, LAYOUT_CACHE},
  },
  shim,
};
use kbtypes as t;
use windows::{
  env::Env,
  Win32::UI::Input::KeyboardAndMouse::{HKL, VIRTUAL_KEY},
};

/// KeyCode::from_scancode.
pub fn code(scan: u32) -> t::Code {
  convert::code(&KeyCode::from_scancode(scan))
}

/// vkey_to_non_char_key: place in Key, or None where it answers Unidentified.
pub fn non_char(vk: u16, language: u16, alt_gr: bool) -> Option<u16> {
  let native = NativeKeyCode::Unidentified;
  let key = oracle_vkey_to_non_char_key(VIRTUAL_KEY(vk), native, HKL(language as usize as _), alt_gr);
  match convert::key(&key) {
    t::Key::Named(place) => Some(place),
    t::Key::Unidentified(_) => None,
    other => panic!("non-character key {other:?}"),
  }
}

/// get_location, with MapVirtualKeyExW answered from the layout.
pub fn location(layout: &t::LayoutSpec, scan: u16) -> t::Location {
  let tables = tables_of(layout);
  let hkl = layout.id as isize;
  let before = windows::env::get();
  windows::env::set(Env { hkl, state: std::ptr::null(), tables: &tables, peek: None, to_unicode: None });
  let answer = oracle_get_location(scan, HKL(hkl as _));
  windows::env::set(before);
  convert::location(answer)
}

/// Layout::get_key with the key code that the scan code stands for. `mods` is a set of modifiers.
pub fn get_key(layout: &t::LayoutSpec, mods: u8, num_lock_on: bool, vk: u16, scan: u16) -> t::Key {
  install(layout);
  shim::set_non_char(&layout.non_char);
  let mods = WindowsModifiers::from_bits_truncate(mods);
  let cache = LAYOUT_CACHE.lock();
  let maps = &cache.layouts[&(layout.id as isize)];
  let key = maps.get_key(mods, num_lock_on, VIRTUAL_KEY(vk), scan, KeyCode::from_scancode(u32::from(scan)));
  convert::key(&key)
}
