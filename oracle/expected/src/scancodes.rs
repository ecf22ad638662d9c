//! Every scan code with the key that KeyCode::from_scancode finds for it.
use kbtypes::{Code, Native};
use tao_oracle::lookups;

/// `CCCC N` for each code that is identified, N the place in KeyCode; then how many are not.
pub fn output() -> String {
  let mut out = String::new();
  let mut unidentified = 0;
  for scan in 0..=0xFFFF_u16 {
    match lookups::code(scan.into()) {
      Code::Named(place) => out += &format!("{scan:04x} {place}\n"),
      Code::Unidentified(Native::Windows(c)) if c == scan => unidentified += 1,
      Code::Unidentified(_) => out += &format!("odd {scan:04x}\n"),
    }
  }
  out + &format!("{unidentified} unidentified, each with its code\n")
}

#[cfg(test)]
mod tests {
  #[test]
  fn document_values() {
    let out = super::output();
    let has = |line: &str| out.lines().any(|l| l == line);
    // AltRight; PrintScreen and Pause have two codes each
    assert!(has("e038 53") && has("0054 119") && has("e037 119") && has("0045 121") && has("e046 121"));
    assert!(!out.contains("odd") && !out.contains("e11d"));
    assert_eq!(out.lines().count(), 150);
    assert!(out.ends_with("\n65387 unidentified, each with its code\n"));
  }
}
