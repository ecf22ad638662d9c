//! An area that is cleared when it is dropped.
use crate::{ffi, AREA_SIZE};

pub struct Area(Box<[u8; AREA_SIZE]>);

impl Area {
  /// Zeros, made on the heap: an area is too large to pass over the stack.
  pub fn zeros() -> Area {
    let zeros: Box<[u8]> = vec![0; AREA_SIZE].into();
    Area(zeros.try_into().expect("it has that size"))
  }

  pub fn bytes(&self) -> &[u8; AREA_SIZE] {
    &self.0
  }

  pub fn bytes_mut(&mut self) -> &mut [u8; AREA_SIZE] {
    &mut self.0
  }

  pub fn clear(&mut self) {
    ffi::clear(&mut self.0[..]);
  }
}

impl Drop for Area {
  fn drop(&mut self) {
    self.clear();
  }
}
