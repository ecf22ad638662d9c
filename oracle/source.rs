// Where tao's files are. Both build scripts include this file.
use std::{env, fs, path::PathBuf};

/// The folder in TAO_SRC, which may be relative to the workspace folder.
fn tao_folder() -> PathBuf {
  println!("cargo:rerun-if-env-changed=TAO_SRC");
  let folder = PathBuf::from(env::var_os("TAO_SRC").expect("set TAO_SRC to the folder `src` of tao 0.37.2"));
  if folder.join("keyboard.rs").is_file() {
    folder
  } else {
    PathBuf::from("..").join(folder)
  }
}

/// SHA-256 of tao 0.37.2's files, by their path in its folder `src`.
const SUMS: &[(&str, &str)] = &[
  ("event.rs", "c4e9f54b06dd5e67a2bbc0f2a1c6304e8a6e8bd0ded7c705c39216a2f6c25911"),
  ("keyboard.rs", "15d617134e6bf5baf499c7e68bb29d5c268649ade44976bc3a22cb50580fc584"),
  ("platform/windows.rs", "13447d0e84dfb76d472cba917975c8c31c8d2bf24f08e3ab98ac27e8906d5f03"),
  ("platform_impl/windows/event.rs", "5e658dbc39645a312c3939a2ecf649ed3abcd9e222ea5bad6bbbcad38826e664"),
  ("platform_impl/windows/event_loop.rs", "bfe777ba15f00b9ca2a1fdd5093b2b02102dbafb5d23eca9f002d1f0c40eaf8a"),
  ("platform_impl/windows/keyboard.rs", "d938ba8f899fcf5d7af2c5ff92dcf578f4663f522ebaa3906844971fa368ed8a"),
  ("platform_impl/windows/keyboard_layout.rs", "ed705d28fcb76a1f499c03cf4673085e8f5e3167e15c130d59bfe697d8a99b9f"),
  ("platform_impl/windows/keycode.rs", "addf12a3ecc7f8075b18cadbf1f82823170d8567a4a71555ac9c6a5bc626c172"),
];

/// The text of one of tao's files, as it is. A file that is not tao 0.37.2's stops the build, unless TAO_CHANGED is set, as
/// compare/mutations does that changes tao on purpose.
fn tao_file(name: &str) -> String {
  let path = tao_folder().join(name);
  println!("cargo:rerun-if-changed={}", path.display());
  println!("cargo:rerun-if-env-changed=TAO_CHANGED");
  let text = fs::read_to_string(&path)
    .unwrap_or_else(|e| panic!("{name}: {e}; is TAO_SRC the folder `src` of tao 0.37.2?"));
  let sum = SUMS.iter().find(|(file, _)| *file == name).unwrap_or_else(|| panic!("{name}: no SHA-256 is noted")).1;
  if sha_256(text.as_bytes()) != sum && env::var_os("TAO_CHANGED").is_none() {
    panic!("{name} is not that of tao 0.37.2: its SHA-256 is {}", sha_256(text.as_bytes()));
  }
  text
}

/// SHA-256 (FIPS 180-4), in hexadecimal. Its constants are the first bits of the fractional parts of roots of primes.
fn sha_256(message: &[u8]) -> String {
  let primes: Vec<u32> = (2u32..).filter(|n| (2..*n).all(|d| n % d != 0)).take(64).collect();
  let fraction = |x: f64| ((x - x.floor()) * 4294967296.0) as u32;
  let k: Vec<u32> = primes.iter().map(|p| fraction(f64::from(*p).cbrt())).collect();
  let mut hash: Vec<u32> = primes[..8].iter().map(|p| fraction(f64::from(*p).sqrt())).collect();
  let mut bytes = message.to_vec();
  bytes.push(0x80);
  while bytes.len() % 64 != 56 {
    bytes.push(0);
  }
  bytes.extend((message.len() as u64 * 8).to_be_bytes());
  for block in bytes.chunks(64) {
    let mut w: Vec<u32> = block.chunks(4).map(|b| u32::from_be_bytes([b[0], b[1], b[2], b[3]])).collect();
    for i in 16..64 {
      let s0 = w[i - 15].rotate_right(7) ^ w[i - 15].rotate_right(18) ^ (w[i - 15] >> 3);
      let s1 = w[i - 2].rotate_right(17) ^ w[i - 2].rotate_right(19) ^ (w[i - 2] >> 10);
      w.push(w[i - 16].wrapping_add(s0).wrapping_add(w[i - 7]).wrapping_add(s1));
    }
    let mut v = hash.clone();
    for i in 0..64 {
      let s1 = v[4].rotate_right(6) ^ v[4].rotate_right(11) ^ v[4].rotate_right(25);
      let choice = (v[4] & v[5]) ^ (!v[4] & v[6]);
      let t1 = v[7].wrapping_add(s1).wrapping_add(choice).wrapping_add(k[i]).wrapping_add(w[i]);
      let s0 = v[0].rotate_right(2) ^ v[0].rotate_right(13) ^ v[0].rotate_right(22);
      let most = (v[0] & v[1]) ^ (v[0] & v[2]) ^ (v[1] & v[2]);
      v.rotate_right(1);
      v[4] = v[4].wrapping_add(t1);
      v[0] = t1.wrapping_add(s0.wrapping_add(most));
    }
    for (h, x) in hash.iter_mut().zip(&v) {
      *h = h.wrapping_add(*x);
    }
  }
  hash.iter().map(|h| format!("{h:08x}")).collect()
}
