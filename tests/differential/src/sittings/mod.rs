//! Calls filed and withdrawn (document 02's L5, with the kept desk of L8 and the marks of L9)
//! on a core and by a plain reading of the request: bounds, broken calls, damaged records and
//! desks, and random sittings.

mod action;
mod bounds;
pub mod candidate;
mod column;
mod damaged;
pub mod due;
mod memory;
mod met;
pub mod random_sittings;
pub mod reading;
pub mod run;
mod seen;
mod shrink;
mod sides;
mod sitting;
pub mod steps;
mod tally;

use std::{
  fmt,
  time::{Duration, Instant},
};

pub use action::Action;
pub use memory::{Cells, Memory, call_bytes};
pub use met::{Case, CaseTally, Cases};
use oracle::random::Random;
pub use random_sittings::sitting as random;
pub use seen::Seen;
pub use sides::{Filing, Sides, Withdrawal};
pub use sitting::{HARMS, Harm, KEPT_HARMS, Kept, Sitting, Written, fresh};
pub use tally::Tally;

use run::{Count, run};

use crate::{Core, run::Difference};

/// What was compared, and the smallest sitting found on which the sides differ, if one
/// was.
pub struct Compared<T = Tally> {
  pub tally: T,
  pub different: Option<(Sitting, Difference)>,
}

impl<T: fmt::Display + 'static> Compared<T> {
  /// What a program prints: what was compared, and the difference, if there is one.
  pub fn printed(self) -> (Box<dyn fmt::Display>, Option<String>) {
    let found = self.different.map(|(sitting, found)| {
      let head = "The smallest sitting found, which differs at its last line:";
      format!("{head}\n\n{sitting}\n{}", found.what)
    });
    (Box::new(self.tally), found)
  }
}

/// Compares all sittings of `chosen` and then random ones: until there were so many of
/// them, time is up, or the sides differ.
pub fn compare<C: Core + Clone>(core: &mut C, seed: u64, count: u64, most: Duration) -> Compared {
  compare_all(core, chosen, random, seed, count, most)
}

/// The same of sittings that are chosen, and of random ones, by these functions.
pub fn compare_all<C: Core + Clone, T: Count + Default>(
  core: &mut C,
  chosen: fn(&mut Random) -> Vec<Sitting>,
  random: fn(u64) -> Sitting,
  seed: u64,
  count: u64,
  most: Duration,
) -> Compared<T> {
  let began = Instant::now();
  let mut seeds = Random::new(seed);
  let mut tally = T::default();
  let chosen = chosen(&mut seeds).into_iter();
  let at_random = (0..count).map(|_| random(seeds.number()));
  let sittings = chosen.chain(at_random.take_while(|_| began.elapsed() < most));
  let different = compare_on(sittings, core, &mut tally);
  Compared { tally, different }
}

/// Compares these sittings. The smallest one found on which the sides differ, if one was.
pub fn compare_on<C: Core + Clone>(
  sittings: impl Iterator<Item = Sitting>,
  core: &mut C,
  tally: &mut impl Count,
) -> Option<(Sitting, Difference)> {
  for sitting in sittings {
    if let Err(found) = run(core, &sitting, tally) {
      return Some(shrink::shrink(core, sitting, found));
    }
  }
  None
}

/// The bounds of a record, every rule broken in every place, and every choice of
/// refusals.
pub fn chosen(seeds: &mut Random) -> Vec<Sitting> {
  let all = [bounds::all(), damaged::all(), due::all()].concat().into_iter();
  all.map(|sitting| sitting.seeded(seeds)).collect()
}
