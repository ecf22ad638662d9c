//! The US layout: its block, and Layout::get_key asked for its keys.
use areas::block;
use kbtypes::{Key, LayoutSpec, Native};
use tao_oracle::{lookups, recording::Recording};

const RECORDING: &str = include_str!("../../recordings/layout-us.txt");

/// None, Shift, Control, Alt, Control and Alt, Caps Lock, Shift and Caps Lock.
const SETS: [u8; 7] = [0, 1, 2, 4, 6, 8, 9];

/// What tao's prepare_layout makes of the recorded answers.
pub fn us() -> LayoutSpec {
  let layouts = Recording::read(RECORDING).unwrap();
  assert_eq!(layouts.len(), 1);
  layouts[0].prepare(1)
}

pub fn block(maps: &LayoutSpec) -> Vec<u8> {
  block::encode(maps).unwrap()
}

/// N and the place of a named key, C and a text's bytes, D and a dead key's character, U and a native code.
fn shown(key: &Key) -> String {
  match key {
    Key::Named(place) => format!("N{place}"),
    Key::Character(text) => text.bytes().fold("C".into(), |s, b| s + &format!("{b:02x}")),
    Key::Dead(None) => "D".into(),
    Key::Dead(Some(c)) => format!("D{:x}", u32::from(*c)),
    Key::Unidentified(native) => match native {
      Native::Unidentified => "U0:0".into(),
      Native::Windows(v) => format!("U1:{v:x}"),
      Native::MacOS(v) => format!("U2:{v:x}"),
      Native::Gtk(v) => format!("U3:{v:x}"),
      Native::Android(v) => format!("U4:{v:x}"),
    },
  }
}

/// `S O VV CCCC K`: set of modifiers, Num Lock, virtual key, its scan code in the block, the key.
pub fn output(maps: &LayoutSpec) -> String {
  let mut out = String::new();
  for set in SETS {
    for num_lock in [false, true] {
      for vk in 0..256_u16 {
        let scan = maps.scan_of_vk[usize::from(vk)];
        if scan != 0 {
          let key = lookups::get_key(maps, set, num_lock, vk, scan);
          out += &format!("{set} {} {vk:02x} {scan:04x} {}\n", u8::from(num_lock), shown(&key));
        }
      }
    }
  }
  out
}

/// How much there is of each part of the block.
pub fn sizes(maps: &LayoutSpec) -> String {
  let bytes = block(maps);
  let mut out = format!("{} bytes, AltGr {}\n", bytes.len(), u8::from(maps.alt_gr));
  let set = |n: usize, what: &str| format!("{n} {what}\n");
  out += &set(maps.non_char.iter().flatten().count(), "virtual keys have a non-character key");
  out += &set(maps.scan_of_vk.iter().filter(|c| **c != 0).count(), "virtual keys have a scan code");
  out += &set(maps.vk_of_scan.iter().flatten().filter(|v| **v != 0).count(), "scan codes have a virtual key");
  for (j, (entries, length)) in block::list_sizes(&bytes).into_iter().enumerate() {
    out += &format!("list {j}: {entries} entries, {length} bytes\n");
  }
  out
}

#[cfg(test)]
mod tests {
  use super::*;

  #[test]
  fn the_block_stands_for_the_maps() {
    let maps = us();
    assert_eq!(block::decode(maps.id, &block(&maps)).unwrap(), maps);
  }

  #[test]
  fn some_keys() {
    let out = output(&us());
    for line in [
      // 1 and !; a and A (Wine gives A under Shift and Caps Lock too)
      "0 0 31 0002 C31",
      "1 0 31 0002 C21",
      "0 0 41 001e C61",
      "8 0 41 001e C41",
      "9 0 41 001e C41",
      // Enter; numpad 0 without Num Lock is Insert, with it Wine gave no text
      "0 0 0d 001c N16",
      "0 0 60 0052 N35",
      "0 1 60 0052 U1:52",
      // VK_NUMLOCK has the code 45, which is Pause; VK_CANCEL's code is Pause too
      "0 0 90 0045 N9",
      "0 0 03 e046 N9",
    ] {
      assert!(out.lines().any(|l| l == line), "{line}");
    }
    assert_eq!(out.lines().count(), 7 * 2 * 153);
  }

  #[test]
  fn every_kind_of_key_is_shown() {
    let u = |n| shown(&Key::Unidentified(n));
    assert_eq!(u(Native::Unidentified), "U0:0");
    assert_eq!(u(Native::Windows(0)), "U1:0");
    assert_eq!(
      [u(Native::MacOS(0x1F)), u(Native::Gtk(0xFFFF)), u(Native::Android(-2))],
      ["U2:1f", "U3:ffff", "U4:fffffffe"]
    );
    assert_eq!(
      [shown(&Key::Dead(None)), shown(&Key::Dead(Some('\0'))), shown(&Key::Dead(Some('´')))],
      ["D", "D0", "Db4"]
    );
    assert_eq!([shown(&Key::Character("é\0".into())), shown(&Key::Named(307))], ["Cc3a900", "N307"]);
  }
}
