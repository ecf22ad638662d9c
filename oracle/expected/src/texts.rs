//! Published examples of UTF-16 and UTF-8. The answers are those of Rust's standard library.

/// The Unicode Standard's examples of the encoding forms (section 3.9), an emoji, ill-formed
/// sequences, and two zeros.
const UNITS: &[&[u16]] = &[
  &[0x004D],
  &[0x0430],
  &[0x4E8C],
  &[0xD800, 0xDF02],
  &[0xD83D, 0xDE00],
  &[0xD83D],
  &[0xDE00],
  &[0xDE00, 0xD83D],
  &[0x0061, 0xD83D],
  &[0xD83D, 0x0061],
  &[0xD83D, 0xD83D, 0xDE00],
  &[0x0000, 0x0000],
];

const BYTES: &[&[u8]] = &[
  // RFC 3629, section 7
  &[0x41, 0xE2, 0x89, 0xA2, 0xCE, 0x91, 0x2E],
  &[0xED, 0x95, 0x9C, 0xEA, 0xB5, 0xAD, 0xEC, 0x96, 0xB4],
  &[0xE6, 0x97, 0xA5, 0xE6, 0x9C, 0xAC, 0xE8, 0xAA, 0x9E],
  &[0xEF, 0xBB, 0xBF, 0xF0, 0xA3, 0x8E, 0xB4],
  // the Unicode Standard's ill-formed ones, and more by its table of well-formed byte sequences (3-7)
  &[0xC0, 0xAF],
  &[0xE0, 0x9F, 0x80],
  &[0xF4, 0x90, 0x80, 0x80],
  &[0xC1, 0xBF],
  &[0xED, 0xA0, 0x80],
  &[0xED, 0xBF, 0xBF],
  &[0xF0, 0x80, 0x80, 0x80],
  &[0xF8, 0x88, 0x80, 0x80, 0x80],
  &[0x80],
  &[0xC2],
  &[0xE2, 0x82],
  &[0xF0, 0x9F, 0x98],
  &[0xF5, 0x80, 0x80, 0x80],
  &[0xC3, 0x28],
  // the ends of that table's rows
  &[0xC2, 0x80],
  &[0xDF, 0xBF],
  &[0xE0, 0xA0, 0x80],
  &[0xED, 0x9F, 0xBF],
  &[0xEE, 0x80, 0x80],
  &[0xEF, 0xBF, 0xBF],
  &[0xF0, 0x90, 0x80, 0x80],
  &[0xF4, 0x8F, 0xBF, 0xBF],
  &[0x00],
  &[0x7F],
];

fn bytes(l: &[u8]) -> String {
  l.iter().map(|b| format!("{b:02x}")).collect::<Vec<_>>().join(" ")
}

/// `UNITS -> BYTES` or `UNITS -> none`, then `BYTES ok` or `BYTES bad`.
pub fn output() -> String {
  let mut out = String::new();
  for units in UNITS {
    units.iter().for_each(|u| out += &format!("{u:04x} "));
    let answer = String::from_utf16(units).map_or("none".into(), |t| bytes(t.as_bytes()));
    out += &format!("-> {answer}\n");
  }
  for l in BYTES {
    let answer = if std::str::from_utf8(l).is_ok() { "ok" } else { "bad" };
    out += &format!("{} {answer}\n", bytes(l));
  }
  out
}

#[cfg(test)]
mod tests {
  /// The values that the documents print.
  #[test]
  fn published_values() {
    let out = super::output();
    let lines: Vec<&str> = out.lines().collect();
    let first =
      ["004d -> 4d", "0430 -> d0 b0", "4e8c -> e4 ba 8c", "d800 df02 -> f0 90 8c 82", "d83d de00 -> f0 9f 98 80"];
    assert_eq!(lines[..5], first);
    assert!(lines[5..11].iter().all(|l| l.ends_with("-> none")));
    assert_eq!(lines[11], "0000 0000 -> 00 00");
    assert!(lines[12..16].iter().all(|l| l.ends_with(" ok")));
    assert!(lines[16..30].iter().all(|l| l.ends_with(" bad")));
    assert!(lines[30..].iter().all(|l| l.ends_with(" ok")));
    assert_eq!(lines.len(), 40);
  }
}
