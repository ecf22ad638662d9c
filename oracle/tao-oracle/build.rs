//! Reads the unmodified tao files (folder in TAO_SRC) and writes one file of modules. Every textual
//! change is in `PATCHES` or `APPENDED`, and each patch must apply exactly once.
include!("../source.rs");

/// (file, text as in tao, text put in its place, why)
const PATCHES: &[(&str, &str, &str, &str)] = &[
  (
    "platform_impl/windows/keyboard.rs",
    "  os::windows::ffi::OsStringExt,\n  sync::atomic",
    "  sync::atomic",
    "no std::os::windows here; see the next patch",
  ),
  (
    "platform_impl/windows/keyboard.rs",
    "use crate::{\n  event::{ElementState, KeyEvent},",
    "use crate::shim::OsStringExt;\nuse crate::{\n  event::{ElementState, KeyEvent},",
    "OsString::from_wide from the shim",
  ),
  (
    "platform_impl/windows/keyboard_layout.rs",
    "  os::windows::ffi::OsStringExt,\n",
    "",
    "no std::os::windows here; see the next patch",
  ),
  (
    "platform_impl/windows/keyboard_layout.rs",
    "use super::keyboard::ExScancode;\n",
    "use super::keyboard::ExScancode;\nuse crate::shim::OsStringExt;\n",
    "OsString::from_wide from the shim",
  ),
  (
    "platform_impl/windows/keyboard_layout.rs",
    "vkey_to_non_char_key(vkey, native_code, HKL(self.hkl as _), self.has_alt_graph)",
    "crate::shim::non_char_from_block(vkey, native_code, HKL(self.hkl as _), self.has_alt_graph)",
    "get_key takes vkey_to_non_char_key's answers from the block",
  ),
];

/// Ways to what is private, appended behind the file's own text.
const APPENDED: &[(&str, &str)] = &[
  (
    "platform_impl/windows/keyboard.rs",
    r#"
// --- appended by the oracle: get_location, and a read-only view of the private state ---
pub(crate) fn oracle_get_location(scancode: ExScancode, hkl: HKL) -> KeyLocation {
  get_location(scancode, hkl)
}
pub(crate) struct OracleView {
  pub next_id: u32,
  /// token, completed
  pub entries: Vec<(u32, bool)>,
  /// virtual key, scan code, units
  pub held: Option<(u16, u16, Vec<u16>)>,
}
impl KeyEventBuilder {
  pub(crate) fn oracle_view(&self) -> Option<OracleView> {
    let q = self.pending.pending.try_lock()?;
    let h = self.event_info.try_lock()?;
    Some(OracleView {
      next_id: self.pending.next_id.load(Relaxed),
      entries: q
        .iter()
        .map(|m| (m.token.0, matches!(m.msg, PendingMessage::Complete(_))))
        .collect(),
      held: h.as_ref().map(|h| (h.vkey.0, h.scancode, h.utf16parts.clone())),
    })
  }
}
"#,
  ),
  (
    "platform_impl/windows/keyboard_layout.rs",
    r#"
// --- appended by the oracle: vkey_to_non_char_key itself, and prepare_layout ---
pub(crate) fn oracle_vkey_to_non_char_key(
  vkey: VIRTUAL_KEY,
  native_code: NativeKeyCode,
  hkl: HKL,
  has_alt_graph: bool,
) -> Key<'static> {
  vkey_to_non_char_key(vkey, native_code, hkl, has_alt_graph)
}
pub(crate) fn oracle_prepare_layout(hkl: HKL) -> Layout {
  LayoutCache::prepare_layout(&mut LAYOUT_CACHE.lock().strings, hkl)
}
"#,
  ),
];

/// One of tao's files, with its patches and what is appended to it.
fn read(name: &str) -> String {
  let mut text = tao_file(name);
  for (_, from, to, why) in PATCHES.iter().filter(|p| p.0 == name) {
    assert_eq!(text.matches(from).count(), 1, "patch does not apply exactly once in {name}: {why}");
    text = text.replacen(from, to, 1);
  }
  for (_, more) in APPENDED.iter().filter(|p| p.0 == name) {
    text.push_str(more);
  }
  text
}

/// The one item of `text` that `head` begins, with the attributes above it.
fn item(text: &str, head: &str) -> String {
  assert_eq!(text.matches(head).count(), 1, "{head}");
  let at = text.find(head).unwrap();
  let from = text[..at].rfind("\n\n").unwrap() + 2;
  let to = at + text[at..].find("\n}\n").unwrap() + 3;
  text[from..to].to_string()
}

fn modules() -> String {
  let keyboard = read("keyboard.rs");
  let event = read("event.rs");
  let event_loop = read("platform_impl/windows/event_loop.rs");
  let win_keyboard = read("platform_impl/windows/keyboard.rs");
  let win_layout = read("platform_impl/windows/keyboard_layout.rs");
  let win_keycode = read("platform_impl/windows/keycode.rs");

  // Of event.rs only KeyEvent and ElementState, of event_loop.rs only ProcResult.
  let key_event = item(&event, "pub struct KeyEvent {");
  let element_state = item(&event, "pub enum ElementState {");
  let proc_result = item(&event_loop, "enum ProcResult {");

  // What is not ours to tidy.
  let allow = "#[allow(warnings, clippy::all)]\n";
  format!(
    "{allow}pub mod keyboard {{\n{keyboard}\n}}\n\
     {allow}pub mod event {{\nuse crate::{{keyboard, platform_impl}};\n{key_event}\n{element_state}\n}}\n\
     {allow}pub mod platform_impl {{\n\
     pub use crate::shim::KeyEventExtra;\n\
     pub use platform::keycode::{{keycode_from_scancode, keycode_to_scancode}};\n\
     pub mod platform {{\n\
     pub use crate::shim::util;\n\
     pub mod event_loop {{\nuse windows::Win32::Foundation::LRESULT;\n{proc_result}\n\
     impl Drop for ProcResult {{ fn drop(&mut self) {{ crate::shim::slot_overwritten(); }} }}\n}}\n\
     pub mod keyboard {{\n{win_keyboard}\n}}\n\
     pub mod keyboard_layout {{\n{win_layout}\n}}\n\
     pub mod keycode {{\n{win_keycode}\n}}\n\
     }}\n}}\n"
  )
}

/// From a case of the enum to its place and back; None for the cases that carry something.
fn places(ty: &str, fun: &str, names: &[&str], carrying: &[&str]) -> String {
  let path = ty.split('<').next().unwrap();
  let plain = || names.iter().enumerate().filter(|(_, v)| !carrying.contains(v));
  let mut out = format!("pub fn {fun}_place(v: &{ty}) -> Option<u16> {{ Some(match v {{\n");
  for (i, v) in plain() {
    out += &format!("{path}::{v} => {i},\n");
  }
  out += "_ => return None,\n}) }\n";
  out += &format!("pub fn {fun}_at(p: u16) -> Option<{ty}> {{ Some(match p {{\n");
  for (i, v) in plain() {
    out += &format!("{i} => {path}::{v},\n");
  }
  out + "_ => return None,\n}) }\n"
}

fn main() {
  println!("cargo:rerun-if-changed=build.rs");
  // tao asks for this feature; it is never on here.
  println!("cargo:rustc-check-cfg=cfg(feature, values(\"serde\"))");
  println!("cargo:rerun-if-changed=../source.rs");
  let dir = PathBuf::from(env::var_os("OUT_DIR").unwrap());
  fs::write(dir.join("tao_mods.rs"), modules()).unwrap();
  let code = places("crate::keyboard::KeyCode", "code", kbtypes::CODE_NAMES, &["Unidentified"]);
  let key = places("crate::keyboard::Key<'static>", "key", kbtypes::KEY_NAMES, &["Character", "Unidentified", "Dead"]);
  fs::write(dir.join("places.rs"), code + &key).unwrap();
}
