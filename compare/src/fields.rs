//! An event as include/mahjonglarch.h has it: 17 fields and four texts.
use crate::library::FIELDS;
use kbtypes::{Code, Event, Key, Native};

fn native_fields(n: Native) -> (u32, u32) {
  match n {
    Native::Unidentified => (0, 0),
    Native::Windows(v) => (1, v.into()),
    Native::MacOS(v) => (2, v.into()),
    Native::Gtk(v) => (3, v.into()),
    Native::Android(v) => (4, v as u32),
  }
}

/// Place in Key, second field, third field, text.
fn key_fields(k: &Key) -> ([u32; 3], &str) {
  match k {
    Key::Character(t) => ([0, 0, 0], t),
    Key::Unidentified(n) => {
      let (kind, value) = native_fields(*n);
      ([1, kind, value], "")
    }
    Key::Dead(None) => ([2, 0, 0], ""),
    Key::Dead(Some(c)) => ([2, 1, u32::from(*c)], ""),
    Key::Named(place) => ([(*place).into(), 0, 0], ""),
  }
}

/// The 17 fields and the four texts that include/mahjonglarch.h describes.
pub fn c_event(e: &Event) -> ([u32; FIELDS], [&str; 4]) {
  let (place, (kind, value)) = match e.physical_key {
    Code::Named(place) => (place.into(), (0, 0)),
    Code::Unidentified(n) => (0, native_fields(n)),
  };
  let ([l0, l1, l2], logical) = key_fields(&e.logical_key);
  let ([k0, k1, k2], without) = key_fields(&e.key_without_modifiers);
  let texts = [logical, e.text.as_deref().unwrap_or(""), e.text_with_all_modifiers.as_deref().unwrap_or(""), without];
  let [t0, t1, t2, t3] = texts.map(|t| t.len() as u32);
  let flags = [e.location as u32, e.state as u32, e.repeat.into(), e.synthetic.into()];
  let [f0, f1, f2, f3] = flags;
  ([place, kind, value, l0, l1, l2, f0, f1, f2, f3, k0, k1, k2, t0, t1, t2, t3], texts)
}
