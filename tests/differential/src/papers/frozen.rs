//! Ranges to be frozen.

use oracle::{Call, generate::Caller as _};

use super::Caller;
use crate::Made;

impl Caller {
  /// Freezes a range, with no call filed.
  pub fn freeze(&mut self) -> Made {
    let (start, end) = self.frozen_range();
    self.made(Call::Freeze { start, end })
  }

  /// A few characters, most often; else any two positions.
  pub fn frozen_range(&mut self) -> (u32, u32) {
    if self.random.one_in(4) {
      return self.range();
    }
    let start = self.between_characters();
    let count = self.random.between(1, 4);
    let behind = self.data.source[start as usize..].chars().take(count);
    (start, start + behind.map(char::len_utf8).sum::<usize>() as u32)
  }
}
