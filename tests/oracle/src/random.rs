//! Random numbers by splitmix64: the same seed gives the same numbers.

#[derive(Debug, Clone)]
pub struct Random(u64);

impl Random {
  pub fn new(seed: u64) -> Self {
    Self(seed)
  }

  pub fn number(&mut self) -> u64 {
    self.0 = self.0.wrapping_add(0x9e37_79b9_7f4a_7c15);
    let mut mixed = self.0;
    mixed = (mixed ^ (mixed >> 30)).wrapping_mul(0xbf58_476d_1ce4_e5b9);
    mixed = (mixed ^ (mixed >> 27)).wrapping_mul(0x94d0_49bb_1331_11eb);
    mixed ^ (mixed >> 31)
  }

  /// A number below `bound`.
  pub fn below(&mut self, bound: usize) -> usize {
    (self.number() % bound as u64) as usize
  }

  /// A number from `low` up to and with `high`.
  pub fn between(&mut self, low: usize, high: usize) -> usize {
    low + self.below(high - low + 1)
  }

  /// True once in `times`.
  pub fn one_in(&mut self, times: usize) -> bool {
    self.below(times) == 0
  }

  pub fn pick<'a, T: ?Sized>(&mut self, from: &[&'a T]) -> &'a T {
    from[self.below(from.len())]
  }
}
