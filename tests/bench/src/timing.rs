//! The least time of one call over repeated rounds.

use std::time::{Duration, Instant};

/// Calls timed together in a round, each on its own copy of the memory.
const ROW: usize = 8;
/// Rounds are repeated until so much time is measured, or so many are made.
const MEASURED: Duration = Duration::from_millis(20);
const FEWEST: usize = 5;
const MOST: usize = 2_000;

/// Nanoseconds per call. What `prepare` does, and dropping it, is not measured.
pub fn least<S>(mut prepare: impl FnMut() -> S, mut call: impl FnMut(&mut S)) -> f64 {
  let mut least = Duration::MAX;
  let mut measured = Duration::ZERO;
  let mut rounds = 0;
  while rounds < FEWEST || (rounds < MOST && measured < MEASURED) {
    let mut states: Vec<S> = (0..ROW).map(|_| prepare()).collect();
    let began = Instant::now();
    states.iter_mut().for_each(&mut call);
    let took = began.elapsed();
    least = least.min(took);
    measured += took;
    rounds += 1;
  }
  least.as_nanos() as f64 / ROW as f64
}
