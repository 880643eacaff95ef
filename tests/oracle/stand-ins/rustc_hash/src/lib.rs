// Stand-in for the crate rustc_hash: std's hash map with a hash of one
// multiplication, as that crate has for numbers.

use std::hash::{BuildHasherDefault, Hasher};

pub type FxHashMap<K, V> = std::collections::HashMap<K, V, BuildHasherDefault<FxHasher>>;

#[derive(Debug, Default, Clone, Copy)]
pub struct FxHasher(u64);

impl Hasher for FxHasher {
  fn write(&mut self, bytes: &[u8]) {
    bytes.iter().for_each(|&byte| self.write_u64(byte.into()));
  }

  fn write_u32(&mut self, number: u32) {
    self.write_u64(number.into());
  }

  fn write_u64(&mut self, number: u64) {
    self.0 = (self.0.wrapping_add(number)).wrapping_mul(0xf135_7aea_2e62_a9c5);
  }

  fn finish(&self) -> u64 {
    self.0.rotate_left(26)
  }
}
