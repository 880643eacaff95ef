//! How much a desk made by hand is to hold.

use oracle::{Limits, random::Random};

use crate::layout::*;

#[derive(Debug, Clone, Copy)]
pub struct Aim {
  pub source: usize,
  pub chunks: usize,
  pub pieces: usize,
  pub bytes: usize,
}

impl Aim {
  pub fn any(random: &mut Random) -> Self {
    match random.below(60) {
      0 => Self::near_limits(random),
      1..=3 => Self::medium(random),
      4 | 5 => Self { source: 0, ..Self::small(random) },
      _ => Self::small(random),
    }
  }

  /// On a desk with these limits: a little, or up to some of them, or nearly.
  pub fn within(limits: Limits, random: &mut Random) -> Self {
    let mut aim = Self::small(random);
    let small = limits.chunks < 100;
    let up_to = if random.one_in(if small { 2 } else { 20 }) { random.between(1, 7) } else { 0 };
    let mut near = |limit: usize| limit.saturating_sub([0, 0, 0, 1, 1, 2, 3, 8][random.below(8)]);
    if up_to & 1 != 0 {
      aim.chunks = near(limits.chunks);
      aim.source = aim.source.max((2 * aim.chunks).min(MOST_SOURCE));
    }
    if up_to & 2 != 0 {
      aim.pieces = near(limits.pieces);
    }
    if up_to & 4 != 0 {
      aim.bytes = near(limits.bytes);
    }
    Self {
      source: if random.one_in(20) { 0 } else { aim.source },
      chunks: aim.chunks.clamp(1, limits.chunks),
      pieces: aim.pieces.min(limits.pieces),
      bytes: aim.bytes.min(limits.bytes),
    }
  }

  pub fn small(random: &mut Random) -> Self {
    Self {
      source: random.between(1, 20),
      chunks: random.between(1, 7),
      pieces: random.below(9),
      bytes: random.below(30),
    }
  }

  fn medium(random: &mut Random) -> Self {
    Self {
      source: random.between(20, 900),
      chunks: random.between(1, 60),
      pieces: random.below(100),
      bytes: random.below(2_000),
    }
  }

  /// At one or more of the limits, or a little below.
  pub fn near_limits(random: &mut Random) -> Self {
    let mut aim = Self { source: random.between(1_600, 3_000), ..Self::medium(random) };
    let which = random.between(1, 15);
    let mut near = |limit: usize| limit - [0, 0, 0, 1, 2, 3, 8, 30][random.below(8)];
    if which & 1 != 0 {
      aim.source = near(MOST_SOURCE);
    }
    if which & 2 != 0 {
      aim.chunks = near(MOST_CHUNKS);
    }
    if which & 4 != 0 {
      aim.pieces = near(MOST_PIECES);
    }
    if which & 8 != 0 {
      aim.bytes = near(MOST_BYTES);
    }
    aim
  }
}
