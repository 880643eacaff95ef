//! Two lists of calls joined on one desk (document 02's L7) on a core and by a plain
//! reading of the request: premises broken one by one and together, bounds, broken lists,
//! damaged desks, and random pairs. Each pair is joined in both orders of its lists.

mod bounds;
mod broken;
pub mod due;
mod forms;
mod frozen;
mod lists;
mod pair;
mod random_pairs;
pub mod reading;
mod reasons;
pub mod run;
mod shrink;
mod space;
mod tally;
mod touching;

use std::time::{Duration, Instant};

pub use lists::Lists;
use oracle::random::Random;
pub use pair::Pair;
pub use random_pairs::{lists_on, pair as random};
pub use reasons::Reasons;
pub use tally::Tally;

use crate::Core;

/// What was compared, and the smallest pair found on which the sides differ, if one was,
/// with the difference.
pub struct Compared {
  pub tally: Tally,
  pub different: Option<(Pair, String)>,
}

/// Compares all pairs of `chosen` and then random ones: until there were so many of them,
/// time is up, or the sides differ.
pub fn compare<C: Core + Clone>(core: &mut C, seed: u64, count: u64, most: Duration) -> Compared {
  let began = Instant::now();
  let mut seeds = Random::new(seed);
  let chosen = chosen(seeds.number());
  let at_random = (0..count).map(|_| random(seeds.number()));
  compare_on(chosen.chain(at_random.take_while(|_| began.elapsed() < most)), core)
}

/// Compares these pairs, up to the first on which the sides differ.
pub fn compare_on<C: Core + Clone>(pairs: impl Iterator<Item = Pair>, core: &mut C) -> Compared {
  let mut tally = Tally::default();
  for pair in pairs {
    if let Err(found) = run::run(core, &pair, &mut tally) {
      return Compared { tally, different: Some(shrink::shrink(core, pair, found)) };
    }
  }
  Compared { tally, different: None }
}

/// Every choice of refusals, every premise broken in every place and beside each other, calls
/// on desks with frozen chunks, calls that nearly touch, space that is just used up, every rule of a list broken, and the bounds
/// of lists.
pub fn chosen(seed: u64) -> impl Iterator<Item = Pair> {
  let mut seeds = Random::new(seed);
  let all =
    [due::all, broken::all, frozen::all, touching::all, space::all, forms::all, bounds::all];
  all.into_iter().flat_map(|all| all()).map(move |pair| pair.seeded(&mut seeds))
}
