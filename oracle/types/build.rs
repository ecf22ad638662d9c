//! Writes the names of Key and KeyCode, in the order of tao's src/keyboard.rs.
include!("../source.rs");

/// The variants of the enum that `head` begins: each stands on a line of its own that ends with a comma.
fn variants<'a>(text: &'a str, head: &str) -> Vec<&'a str> {
  assert_eq!(text.matches(head).count(), 1, "{head}");
  let body = &text[text.find(head).unwrap() + head.len()..];
  body[..body.find("\n}\n").unwrap()]
    .lines()
    .map(str::trim)
    .filter(|l| !l.starts_with("//") && !l.starts_with('#') && l.ends_with(','))
    .map(|l| l.trim_end_matches(',').split('(').next().unwrap())
    .collect()
}

fn main() {
  println!("cargo:rerun-if-changed=../source.rs");
  let text = tao_file("keyboard.rs");
  let mut out = String::new();
  for (name, head) in [("CODE_NAMES", "pub enum KeyCode {\n"), ("KEY_NAMES", "pub enum Key<'a> {\n")] {
    out += &format!("pub const {name}: &[&str] = &{:?};\n", variants(&text, head));
  }
  fs::write(PathBuf::from(env::var_os("OUT_DIR").unwrap()).join("names.rs"), out).unwrap();
}
