//! The examiner's column (document 02's L9) on a core and by the plain reading of `sittings`:
//! marks, the two readings of an entry and the total, each number beside the others, records
//! that are none, what filing and withdrawing make of marks; and a member's calls beside two
//! records that differ in nothing but marks.

mod cases;
pub mod due;
mod marked;
mod members;
mod moved;
mod none;
mod random_sittings;
mod shown;

use std::time::Duration;

use cases::OfMarks;
use oracle::random::Random;
pub use random_sittings::sitting as random;

use crate::{
  Core,
  sittings::{self, CaseTally, Sitting},
};

pub type Tally = CaseTally<OfMarks>;
pub type Compared = sittings::Compared<Tally>;

/// Compares all sittings of `chosen` and then random ones: until there were so many of
/// them, time is up, or the sides differ.
pub fn compare<C: Core + Clone>(core: &mut C, seed: u64, count: u64, most: Duration) -> Compared {
  sittings::compare_all(core, chosen, random, seed, count, most)
}

/// Every call of the column at its bounds, on records of every kind, and every call of a
/// member's.
pub fn chosen(seeds: &mut Random) -> Vec<Sitting> {
  let all = [marked::all(), shown::all(), moved::all(), none::all(), due::all(), members::all()];
  all.concat().into_iter().map(|sitting| sitting.seeded(seeds)).collect()
}
