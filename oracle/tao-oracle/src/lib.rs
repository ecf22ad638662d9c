//! The real tao code (see build.rs for the few textual patches) run from a script of calls.

macro_rules! trace {
  ($($t:tt)*) => {};
}
macro_rules! warn {
  ($($t:tt)*) => {};
}

/// As much of bitflags as tao's keyboard files use.
macro_rules! bitflags {
  (
    $(#[$outer:meta])*
    pub struct $name:ident : $ty:ty {
      $( $(#[$inner:meta])* const $flag:ident = $value:expr; )*
    }
  ) => {
    $(#[$outer])*
    pub struct $name($ty);
    impl $name {
      $( $(#[$inner])* pub const $flag: $name = $name($value); )*
      const ALL: $ty = 0 $( | $value )*;
      pub const fn empty() -> Self { $name(0) }
      pub const fn bits(&self) -> $ty { self.0 }
      pub const fn from_bits_truncate(b: $ty) -> Self { $name(b & Self::ALL) }
      pub const fn contains(&self, o: Self) -> bool { self.0 & o.0 == o.0 }
      pub const fn intersects(&self, o: Self) -> bool { self.0 & o.0 != 0 }
      pub fn insert(&mut self, o: Self) { self.0 |= o.0; }
      pub fn remove(&mut self, o: Self) { self.0 &= !o.0; }
      pub fn set(&mut self, o: Self, on: bool) { if on { self.insert(o) } else { self.remove(o) } }
    }
    impl std::ops::BitOr for $name {
      type Output = Self;
      fn bitor(self, o: Self) -> Self { $name(self.0 | o.0) }
    }
  };
}

pub mod error {
  #[derive(Debug)]
  pub struct OsError;
}

pub mod shim {
  use crate::keyboard::{Key, NativeKeyCode};
  use std::{cell::Cell, ffi::OsString, os::unix::ffi::OsStringExt as _};
  use windows::Win32::UI::Input::KeyboardAndMouse::{HKL, VIRTUAL_KEY};

  /// Its file is not among the six that are read; these are its two fields.
  #[derive(Debug, Clone, Eq, PartialEq, Hash)]
  pub struct KeyEventExtra {
    pub text_with_all_modifiers: Option<&'static str>,
    pub key_without_modifiers: Key<'static>,
  }

  pub mod util {
    use windows::Win32::UI::Input::KeyboardAndMouse::HKL;
    #[allow(non_snake_case)]
    pub fn PRIMARYLANGID(hkl: HKL) -> u32 {
      (hkl.0 as usize & 0x3FF) as u32
    }
  }

  pub trait OsStringExt {
    fn from_wide(wide: &[u16]) -> Self;
  }
  impl OsStringExt for OsString {
    /// As on Windows: a lone surrogate goes through as three bytes that are no UTF-8, so that
    /// `into_string` fails.
    fn from_wide(wide: &[u16]) -> Self {
      let mut out = Vec::new();
      for r in char::decode_utf16(wide.iter().copied()) {
        match r {
          Ok(c) => out.extend_from_slice(c.encode_utf8(&mut [0; 4]).as_bytes()),
          Err(_) if LOSSY.with(|l| l.get()) => out.extend_from_slice("\u{FFFD}".as_bytes()),
          Err(e) => {
            let u = e.unpaired_surrogate();
            out.extend_from_slice(&[0xE0 | (u >> 12) as u8, 0x80 | ((u >> 6) & 0x3F) as u8, 0x80 | (u & 0x3F) as u8]);
          }
        }
      }
      OsString::from_vec(out)
    }
  }

  thread_local! {
    static NON_CHAR: Cell<*const [Option<u16>; 256]> = const { Cell::new(std::ptr::null()) };
    static LOSSY: Cell<bool> = const { Cell::new(false) };
    static OVERWRITTEN: Cell<u64> = const { Cell::new(0) };
  }
  /// Lone units become FFFD (off at first).
  pub fn set_lossy(on: bool) {
    LOSSY.with(|l| l.set(on));
  }
  pub(crate) fn set_non_char(p: *const [Option<u16>; 256]) {
    NON_CHAR.with(|c| c.set(p));
  }
  /// The answers of vkey_to_non_char_key come from the block.
  pub(crate) fn non_char_from_block(vkey: VIRTUAL_KEY, native: NativeKeyCode, _hkl: HKL, _altgr: bool) -> Key<'static> {
    let p = NON_CHAR.with(|c| c.get());
    assert!(!p.is_null());
    if vkey.0 <= 0xFF {
      if let Some(place) = unsafe { (*p)[vkey.0 as usize] } {
        return crate::places::key_at(place).expect("place in Key");
      }
    }
    Key::Unidentified(native)
  }
  /// Called whenever a ProcResult is dropped, so also when `*result = ...` overwrites one.
  pub(crate) fn slot_overwritten() {
    OVERWRITTEN.with(|c| c.set(c.get() + 1));
  }
  pub(crate) fn overwritten() -> u64 {
    OVERWRITTEN.with(|c| c.get())
  }
}

include!(concat!(env!("OUT_DIR"), "/tao_mods.rs"));

pub mod places {
  include!(concat!(env!("OUT_DIR"), "/places.rs"));
}

pub mod bench;
pub mod convert;
pub mod driver;
pub mod lookups;
pub mod prepare;
pub mod recording;
pub use driver::{run_script, OracleAnswer, OracleRun};
pub use unicode_segmentation::{clusters, set_counter, set_table};
