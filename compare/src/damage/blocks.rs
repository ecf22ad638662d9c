//! Each byte of several blocks.
use super::{alone, call, damaged, Tried};
use crate::{
  layouts::{passing_id, Layout, Layouts},
  run::{Difference, Machine, Stopped},
  script::{state, up, Odd, State, Step},
};
use areas::block;
use std::sync::Arc;

/// The keys of a set of modifiers.
fn modifiers(set: usize) -> State {
  let bytes = [(0x10, 0x80), (0x11, 0x80), (0x12, 0x80), (0x14, 0x01)];
  let some: Vec<(u8, u8)> = bytes.iter().enumerate().filter(|(i, _)| set >> i & 1 == 1).map(|b| *b.1).collect();
  state(&some)
}

/// The list that has the byte at this place.
fn list_of(block: &[u8], at: usize) -> Option<usize> {
  let mut end = block::HEADER;
  let sizes = block::list_sizes(block);
  (at >= end).then(|| {
    sizes.iter().position(|(_, length)| {
      end += usize::from(*length);
      at < end
    })
  })?
}

/// Calls that read what the byte at `at` says: all keys at a focus change, and the keys that it is about.
fn reading(original: &[u8], at: usize, l: &Arc<Layout>) -> Vec<Step> {
  let all = Arc::new([0x80; 256]);
  let locked = Arc::new([0x81; 256]);
  let none = state(&[]);
  let mut steps = vec![call(l, &all, 7, 0, 0), call(l, &locked, 8, 0, 0)];
  let mut key = |keys: &State, vk: u64, lparam: u64| {
    steps.extend([call(l, keys, 0x101, vk, lparam), alone(l, keys), call(l, keys, 0x100, vk, lparam), alone(l, keys)]);
  };
  match at {
    0..74 => key(&none, 0x31, up(0x02)),
    74..586 => key(&none, (at as u64 - 74) / 2, 0x1),
    586..1098 => key(&none, (at as u64 - 586) / 2, 0x1),
    1098..1610 => key(&none, 0x31, up((at as u64 - 1098) / 2)),
    1610..2122 => key(&none, 0x31, up(0xE000 | ((at as u64 - 1610) / 2))),
    2122..2634 => {
      // page E1 is reached by scan code 00
      let code = 0xE100 | ((at - 2122) / 2) as u16;
      let vk = l.maps.scan_of_vk.iter().position(|c| *c == code);
      key(&none, vk.unwrap_or(0x13) as u64, 0x1);
    }
    _ => {
      let keys = match list_of(original, at) {
        Some(0) => state(&[(0x90, 0x01)]),
        Some(j) if j > 1 => modifiers(j - 2),
        _ => none,
      };
      let with_code = (0..256).filter(|vk| l.maps.scan_of_vk[*vk] != 0);
      with_code.for_each(|vk| key(&keys, vk as u64, 0xC000_0001));
    }
  }
  steps
}

pub fn run(m: &mut Machine) -> Result<Tried, Stopped> {
  let (mut tried, mut fine) = (0, 0);
  let l = Layouts::new();
  let odd_one = &l.random[l.random.len() - 1];
  for layout in [&l.empty, &l.accent, &l.odd, &l.random[0], odd_one] {
    for at in 0..layout.block.len() {
      for byte in damaged(layout.block[at]) {
        tried += 1;
        let mut bytes = layout.block.clone();
        bytes[at] = byte;
        let name = format!("{}, byte {at} is {byte:02X}", layout.name);
        let steps = match Layout::read(&name, passing_id(), bytes) {
          // refused with 3, which the run expects by the same reading
          None => {
            let odd = Odd::BlockByte(at, layout.block[at] ^ byte);
            vec![call(layout, &state(&[]), 0x101, 0x31, up(0x02)).odd(odd)]
          }
          Some(read) => {
            fine += 1;
            if block::encode(&read.maps).ok().as_ref() != Some(&read.block) {
              let what = format!("{name}: its maps have another block");
              return Err((vec![], Difference { at: 0, what }));
            }
            reading(&layout.block, at, &read)
          }
        };
        m.run(&steps).map_err(|d| (steps.clone(), d))?;
      }
    }
  }
  Ok((tried, fine))
}
