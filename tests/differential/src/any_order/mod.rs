//! The any-order rule (docs/ANY-ORDER.md) on random lists: a list that passes its
//! checks is run in all its orders, or in some, and every order must be accepted
//! edit by edit, leave the same desk and the same text, and show the same to every
//! later call. Lists that fail one check show that the comparison can tell.

pub mod edits;
mod later;
pub mod lists;
mod orders;
pub mod premises;
pub mod run;
mod shrink;
mod sitting;
mod tally;

use std::time::{Duration, Instant};

pub use later::{Asked, Later};
pub use lists::sitting;
use oracle::random::Random;
pub use orders::orders;
pub use premises::{CHECKS, Check, Premises, UNTOLD};
use run::{Difference, run};
pub use sitting::{Sitting, Start};
pub use tally::Tally;

use crate::Core;

/// What was compared, and the smallest sitting found whose orders differ, if one
/// does.
pub struct Compared {
  pub tally: Tally,
  pub different: Option<(Sitting, Difference)>,
}

/// Compares the orders of lists that pass every check, or that fail one alone:
/// until so many lists were run, time is up, or two orders differ.
pub fn compare<C: Core + Clone>(
  core: &mut C,
  left_out: Option<Check>,
  seed: u64,
  count: u64,
  most: Duration,
) -> Compared {
  let began = Instant::now();
  let mut seeds = Random::new(seed);
  let mut tally = Tally::default();
  while tally.lists + tally.passed_over < count && began.elapsed() < most {
    let Some(sitting) = sitting(left_out, seeds.number()) else { continue };
    if let Err(found) = run(core, &sitting, &mut tally) {
      return Compared { tally, different: Some(shrink::shrink(core, sitting, found, left_out)) };
    }
  }
  Compared { tally, different: None }
}
