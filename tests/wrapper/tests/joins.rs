//! Random joins on both sides, one behind the other on a desk.

use std::collections::BTreeMap;

use magic_string::MagicString;
use oracle::{Call, Desk, Limits, random::Random};
use wrapper::{join::join, sitting::Calls};

/// Up to this many calls.
fn list(calls: &mut Calls, most: usize) -> Vec<Call> {
  (0..calls.random.between(0, most)).map(|_| calls.call()).collect()
}

/// Pairs of lists on one desk; how often each number came.
fn run(calls: &mut Calls, pairs: usize, most: usize, met: &mut BTreeMap<u32, usize>) {
  let mut desk = MagicString::new(calls.source).unwrap();
  let mut rust = Desk::open(Limits::FULL, calls.source.as_bytes()).unwrap();
  for _ in 0..pairs {
    let (first, second) = (list(calls, most), list(calls, most));
    *met.entry(join(&mut desk, &mut rust, [&first, &second])).or_default() += 1;
  }
}

#[test]
fn short_lists_are_the_same() {
  let (random, mut met) = (&mut Random::new(1), BTreeMap::new());
  let sources = ["abcdefghijklmnopqrstuvwxyz", "aébc €d😀\nefghijklmn", ""];
  for source in sources.into_iter().cycle().take(600) {
    run(&mut Calls { random, source, text: 8, moves: 1 }, 20, 2, &mut met);
  }
  assert!([0, 18, 19].iter().all(|number| met[number] > 1_000), "{met:?}");
}

/// Texts with which the store is full in the end.
#[test]
fn full_desks_are_the_same() {
  let (random, mut met) = (&mut Random::new(2), BTreeMap::new());
  for _ in 0..20 {
    let source = &"abcdefgh".repeat(20);
    run(&mut Calls { random, source, text: 6_000, moves: 0 }, 60, 2, &mut met);
  }
  assert!([0, 13, 18, 19].iter().all(|number| met.contains_key(number)), "{met:?}");
}
