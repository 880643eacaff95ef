//! Frozen parts (document 02's L8) on a core and by the plain reading of `sittings`: 20
//! beside every other number, marks that are cut and moved, freezings beside records, kept
//! desks with marks, and random sittings.

mod cases;
mod due;
mod random_sittings;
mod records;
mod seen;
mod sweep;

use std::time::Duration;

use cases::OfFrozen;
use oracle::random::Random;
pub use random_sittings::sitting as random;

use crate::{
  Core,
  sittings::{self, CaseTally, Sitting},
};

pub type Tally = CaseTally<OfFrozen>;
pub type Compared = sittings::Compared<Tally>;

/// Compares all sittings of `chosen` and then random ones: until there were so many of
/// them, time is up, or the sides differ.
pub fn compare<C: Core + Clone>(core: &mut C, seed: u64, count: u64, most: Duration) -> Compared {
  sittings::compare_all(core, chosen, random, seed, count, most)
}

/// Every range of small desks, every number beside 20, and records of every kind.
pub fn chosen(seeds: &mut Random) -> Vec<Sitting> {
  let all = [sweep::all(), due::all(), records::all()].concat().into_iter();
  all.map(|sitting| sitting.seeded(seeds)).collect()
}
