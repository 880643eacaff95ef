//! Random papers until so many calls are made, time is up, or the sides differ.

use std::time::{Duration, Instant};

use oracle::random::Random;

use crate::{
  Core, Paper, Tally, papers,
  run::{Difference, run},
  shrink::shrink,
};

/// What was compared, and the smallest paper found that differs, if one does.
pub struct Compared {
  pub tally: Tally,
  pub different: Option<(Paper, Difference)>,
}

pub fn compare<C: Core + Clone>(core: &mut C, seed: u64, count: u64, most: Duration) -> Compared {
  compare_on(papers::paper, core, seed, count, most)
}

/// On papers of one kind: each is made from a seed.
pub fn compare_on<C: Core + Clone>(
  paper: fn(u64) -> Paper,
  core: &mut C,
  seed: u64,
  count: u64,
  most: Duration,
) -> Compared {
  let began = Instant::now();
  let mut seeds = Random::new(seed);
  let mut tally = Tally::default();
  while tally.calls < count && began.elapsed() < most {
    let paper = paper(seeds.number());
    if let Err(found) = run(core, &paper, &mut tally) {
      return Compared { tally, different: Some(shrink(core, paper, found)) };
    }
  }
  Compared { tally, different: None }
}
