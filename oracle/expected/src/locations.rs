//! get_location over whole pages of scan codes.
use kbtypes::LayoutSpec;
use tao_oracle::lookups;

/// Every scan code of pages 00, E0 and E1 has the virtual key of its low byte; nothing else is set.
pub fn pages() -> LayoutSpec {
  let mut maps = LayoutSpec::empty(2);
  maps.vk_of_scan = [std::array::from_fn(|low| low as u16); 3];
  maps
}

/// The three pages of the block, then two without virtual keys: `page PP`, and 16 lines of 16 digits.
pub fn output(maps: &LayoutSpec) -> String {
  let mut out = String::new();
  for page in [0x00, 0xE0, 0xE1, 0x01, 0xFF_u16] {
    out += &format!("page {page:02x}\n");
    for low in 0..256 {
      out += &(lookups::location(maps, page << 8 | low) as u8).to_string();
      if low % 16 == 15 {
        out.push('\n');
      }
    }
  }
  out
}

#[cfg(test)]
mod tests {
  /// The digit of virtual key `vk` on the page at this place.
  fn digit(page: usize, vk: usize) -> u8 {
    super::output(&super::pages()).lines().nth(17 * page + 1 + vk / 16).unwrap().as_bytes()[vk % 16] - b'0'
  }

  #[test]
  fn document_values() {
    let [standard, left, right, numpad] = [0, 1, 2, 3];
    assert_eq!([0, 1, 2].map(|p| digit(p, 0x0D)), [standard, numpad, numpad]);
    assert_eq!([0, 1, 2].map(|p| digit(p, 0x2E)), [numpad, standard, standard]);
    assert_eq!([0xA0, 0xA3, 0x60, 0x41].map(|v| digit(0, v)), [left, right, numpad, standard]);
    assert_eq!([3, 4].map(|p| digit(p, 0xA0)), [standard, standard]);
  }
}
