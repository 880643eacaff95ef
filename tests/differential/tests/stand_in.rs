//! The harness finds no difference where there is none.

use std::time::Duration;

use differential::{
  Image, compare::compare, cores::StandIn, damage, damage::Judge, image, made, well_formed,
};
use oracle::random::Random;

/// The desk in this memory is the one that was laid out, and it is well formed.
#[test]
fn desks_are_read_back() {
  let mut random = Random::new(1);
  for _ in 0..1_500 {
    let desk = made::desk(&mut random);
    let Image { source, chunks, pieces, store } = image::encode(&desk, &mut random);
    assert!(well_formed(&source, &chunks, &pieces, &store));
    assert_eq!(image::decode(&source, &chunks, &pieces, &store), desk);
  }
}

#[test]
fn no_call_differs_and_every_number_is_met() {
  let compared = compare(&mut StandIn::new(2), 2, 40_000, Duration::MAX);
  if let Some((paper, found)) = compared.different {
    panic!("{paper}{found:?}");
  }
  let numbers = compared.tally.numbers;
  assert!(numbers.iter().all(|&met| met > 0), "a number was not met: {numbers:?}");
}

#[test]
fn no_image_is_judged_otherwise() {
  let mut core = StandIn::new(3);
  let mut judge = Judge::new(&mut core, 3);
  damage::all(&mut judge, 3).unwrap_or_else(|found| panic!("{found}"));
  let [well, ill] = judge.verdicts.totals();
  assert!(well > 10_000 && ill > 10_000, "too few of a verdict: {well}, {ill}");
}
