//! Numbers from a seed.

/// xorshift64*, seeded through splitmix64 so that neighbouring seeds have nothing in common.
#[derive(Clone)]
pub struct Dice(u64);

impl Dice {
  pub fn new(seed: u64) -> Self {
    let mut z = seed.wrapping_add(0x9E37_79B9_7F4A_7C15);
    z = (z ^ (z >> 30)).wrapping_mul(0xBF58_476D_1CE4_E5B9);
    z = (z ^ (z >> 27)).wrapping_mul(0x94D0_49BB_1331_11EB);
    Dice((z ^ (z >> 31)) | 1)
  }

  pub fn next(&mut self) -> u64 {
    self.0 ^= self.0 >> 12;
    self.0 ^= self.0 << 25;
    self.0 ^= self.0 >> 27;
    self.0.wrapping_mul(0x2545_F491_4F6C_DD1D)
  }

  /// Below `n`.
  pub fn below(&mut self, n: usize) -> usize {
    ((u128::from(self.next()) * n as u128) >> 64) as usize
  }

  /// `n` times in a hundred.
  pub fn now(&mut self, n: usize) -> bool {
    self.below(100) < n
  }

  pub fn of<T: Copy>(&mut self, all: &[T]) -> T {
    all[self.below(all.len())]
  }
}
