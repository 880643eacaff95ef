//! Sittings by needed cases, compared on a right core.

use differential::sittings::{CaseTally, Compared, Sitting};
use oracle::random::Random;

/// None differs, and every case is met: with so many random sittings, and by the chosen ones
/// alone.
pub fn nothing_is_missing<C>(compared: fn(u64) -> Compared<CaseTally<C>>) {
  for count in [1_000, 0] {
    let Compared { tally, different } = compared(count);
    if let Some((sitting, found)) = different {
      panic!("{sitting}{found:?}");
    }
    assert_eq!(tally.missing(), Vec::<String>::new(), "with {count} random sittings");
  }
}

/// A seed gives one sitting; all of them can be printed.
pub fn same_for_a_seed(random: fn(u64) -> Sitting, chosen: fn(&mut Random) -> Vec<Sitting>) {
  let printed = |seed| random(seed).to_string();
  assert!((0..50).all(|seed| printed(seed) == printed(seed)));
  assert!(chosen(&mut Random::new(1)).iter().all(|sitting| !sitting.to_string().is_empty()));
}
