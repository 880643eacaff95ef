//! Random calls on both sides, with freezings between them.

use std::collections::BTreeSet;

use magic_string::MagicString;
use oracle::{Call, Desk, Limits, apply, generate::generate};
use wrapper::{call, data};

#[test]
fn random_calls_are_the_same() {
  let mut desk = MagicString::default();
  let mut rust = Desk::open(Limits::FULL, b"").unwrap();
  let mut met = [0; 21];
  let mut cut = BTreeSet::new();
  for made in generate(1, 100_000).into_iter().enumerate().flat_map(with_freezing) {
    // A call that the wrapper cannot make is made on neither side.
    if let Some(answer) = call(&mut desk, &made) {
      assert_eq!(answer, apply(&mut rust, &made), "{made}");
      assert_eq!(data(&desk), rust.data(), "{made}");
      met[answer.number as usize] += 1;
      cut.extend((made.is_edit() && answer.value > 0).then_some(answer.number));
    }
  }
  // Every number but 2, which the oracle does not have.
  let missed: Vec<usize> =
    (0..16).chain([20]).filter(|&number| number != 2 && met[number] == 0).collect();
  assert_eq!(missed, [], "not met, of {met:?}");
  // Every number with which cuts remain came with some.
  assert_eq!(cut, BTreeSet::from([0, 6, 7, 9, 10, 20]));
}

/// The call, and before one of many a freezing of its range, or of the front of it.
fn with_freezing((place, call): (usize, Call)) -> Vec<Call> {
  match call.positions()[..] {
    [start, end, ..] if place % 30 == 0 => {
      let end = if place % 60 == 0 { end } else { end.min(start.saturating_add(1)) };
      vec![Call::Freeze { start, end }, call]
    }
    _ => vec![call],
  }
}
