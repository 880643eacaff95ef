//! The comparison of frozen parts finds no difference where there is none, and meets every
//! case.

mod whole_sittings;

use std::time::Duration;

use differential::{
  cores::StandIn,
  frozen::{Compared, chosen, compare, random},
  sittings::{Action, Memory, Sides, reading},
};
use oracle::random::Random;
use whole_sittings::{nothing_is_missing, same_for_a_seed};

/// Compares the chosen sittings and so many random ones.
fn compared(count: u64) -> Compared {
  compare(&mut StandIn::new(2), 2, count, Duration::MAX)
}

#[test]
fn no_sitting_differs_and_everything_is_met() {
  nothing_is_missing(compared);
}

#[test]
fn sittings_are_the_same_for_a_seed() {
  same_for_a_seed(random, chosen);
}

/// A withdrawal of all calls leaves the desk that stood before the first, with its marks.
#[test]
fn what_is_kept_comes_back() {
  let (mut core, random) = (StandIn::new(3), &mut Random::new(3));
  let mut kept = 0;
  for sitting in chosen(&mut Random::new(4)) {
    let (image, _) = sitting.memory(random);
    let mut sides = Sides::of(image, Memory::empty(random));
    let Some(before) = sides.desk().map(|desk| desk.data()) else { continue };
    let filed = sitting.actions.iter().filter(|action| matches!(action, Action::File(_)));
    for action in filed {
      let Action::File(call) = action else { unreachable!() };
      sides.file(&mut core, call, random).expect("no difference");
    }
    while sides.record().is_some_and(|record| !record.entries.is_empty()) {
      assert_eq!(
        sides.withdraw(&mut core, 1).expect("no difference").map(|done| done.number),
        Some(0)
      );
      kept += 1;
    }
    assert_eq!(sides.desk().map(|desk| desk.data()), Some(before), "{sitting}");
  }
  assert!(kept > 100, "{kept} withdrawals");
}

/// What a record keeps is looked at with calls alone, and must be a desk over the source.
#[test]
fn kept_desks_are_read() {
  let random = &mut Random::new(5);
  let mut met = [0; 2];
  for sitting in chosen(random) {
    let (image, memory) = sitting.memory(random);
    let (words, bytes) = (memory.words.lent(), memory.bytes.lent());
    let Some(entries) = reading::entries(words, bytes) else { continue };
    let record = reading::read(&image.source, words, bytes);
    let is_harmed = sitting.record.harm.is_some()
      || sitting.harm.is_some_and(|harm| harm.name.contains("source"));
    assert_eq!(record.is_some(), entries.is_empty() || !is_harmed, "{sitting}");
    met[is_harmed as usize] += !entries.is_empty() as usize;
  }
  assert!(met.iter().all(|&met| met > 20), "{met:?}");
}
