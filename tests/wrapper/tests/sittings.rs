//! Random sittings on both sides: calls filed and withdrawn, parts frozen, and marks given.

use std::collections::BTreeSet;

use magic_string::{Refusal, Sitting};
use oracle::random::Random;
use wrapper::{
  data,
  sitting::{Calls, Plain, entries, file, freeze, marked_entries},
};

/// What was met.
#[derive(Default)]
struct Met {
  filed: BTreeSet<u32>,
  not_filed: usize,
  withdrawn: BTreeSet<u32>,
  frozen: BTreeSet<u32>,
  marked: BTreeSet<u32>,
  /// Later calls that turned from accepted to refused, and the other way.
  to_refused: usize,
  to_accepted: usize,
}

/// Steps on both sides, each answer and all that is left compared.
fn run(calls: &mut Calls, steps: usize, withdrawals: usize, met: &mut Met) {
  let mut sitting = Sitting::open(calls.source).unwrap();
  let mut plain = Plain::open(calls.source);
  for _ in 0..steps {
    if calls.random.one_in(withdrawals) {
      let k = calls.random.below(plain.entries.len() + 2);
      let before: Vec<u32> = plain.entries.iter().map(|&(_, number)| number).collect();
      let number = plain.withdraw(k);
      let answer = sitting.withdraw(k).map(drop);
      assert_eq!(answer.map_or_else(|refusal| refusal.number(), |()| 0), number);
      assert_eq!(sitting.desk().cuts(), 0);
      met.withdrawn.insert(number);
      if number == 0 {
        let later = before[k..].iter().zip(&plain.entries[k - 1..]);
        met.to_refused += later.clone().filter(|&(&was, &(_, is))| was == 0 && is != 0).count();
        met.to_accepted += later.filter(|&(&was, &(_, is))| was != 0 && is == 0).count();
      }
    } else if plain.entries.is_empty() || calls.random.one_in(20) {
      let (start, end) = calls.range();
      let answer = plain.freeze(start, end);
      assert_eq!(freeze(&mut sitting, start, end), answer, "freeze {start} {end}");
      met.frozen.insert(answer.number);
      file_any(calls, &mut sitting, &mut plain, met);
    } else {
      file_any(calls, &mut sitting, &mut plain, met);
    }
    if calls.random.one_in(3) {
      let (k, marks) =
        (calls.random.below(plain.entries.len() + 2), calls.random.below(105) as u32);
      let number = plain.set_marks(k, marks);
      let answer = sitting.examiner().set_marks(k, marks).map(drop);
      assert_eq!(answer.map_or_else(|refusal| refusal.number(), |()| 0), number);
      met.marked.insert(number);
    }
    assert_eq!(sitting.len(), plain.entries.len());
    assert_eq!(sitting.entries(), entries(&plain));
    assert_eq!(data(sitting.desk()), plain.desk.data());
    assert_eq!(data(&sitting.start()), plain.start().data());
    read_any(calls, &mut sitting, &plain);
  }
}

/// An entry as the member and as the examiner read it, and all marks.
fn read_any(calls: &mut Calls, sitting: &mut Sitting, plain: &Plain) {
  let k = calls.random.below(plain.entries.len() + 2);
  let (entries, marked) = (entries(plain), marked_entries(plain));
  let nth = k.checked_sub(1);
  let entry = nth.and_then(|i| entries.get(i)).copied().ok_or(Refusal::NoSuchCall);
  assert_eq!(sitting.member().entry(k), entry);
  let mut examiner = sitting.examiner();
  let entry = nth.and_then(|i| marked.get(i)).copied().ok_or(Refusal::NoSuchCall);
  assert_eq!(examiner.marked_entry(k), entry);
  assert_eq!(examiner.marked_entries(), marked);
  assert_eq!(examiner.total(), plain.marks.iter().sum());
}

/// A call, filed on both sides.
fn file_any(calls: &mut Calls, sitting: &mut Sitting, plain: &mut Plain, met: &mut Met) {
  let call = calls.call();
  let answer = plain.file(&call);
  assert_eq!(file(sitting, &call), answer, "{call}");
  met.not_filed += usize::from(answer.is_none());
  met.filed.extend(answer.map(|answer| answer.number));
}

#[test]
fn short_sittings_are_the_same() {
  let random = &mut Random::new(1);
  let mut met = Met::default();
  for source in ["abcdefgh", "aébc €d😀\nefg", ""].into_iter().cycle().take(1_500) {
    run(&mut Calls { random, source, text: 8, moves: 1 }, 30, 4, &mut met);
  }
  // Every number of such calls but the limit. The first freezing finds no replacement.
  assert_eq!(met.filed, BTreeSet::from([0, 3, 4, 5, 6, 7, 8, 9, 10, 20]));
  assert_eq!(met.withdrawn, BTreeSet::from([0, 17]));
  assert_eq!(met.frozen, BTreeSet::from([0, 3, 4, 10, 20]));
  assert_eq!(met.marked, BTreeSet::from([0, 17, 21]));
  let turned = [met.to_refused, met.to_accepted];
  assert!(turned.iter().all(|&calls| calls > 50), "{turned:?}");
}

/// More calls than a record takes, and more text.
#[test]
fn full_records_are_the_same() {
  let random = &mut Random::new(2);
  for (text, steps) in [(8, 260), (6_000, 120)] {
    let mut met = Met::default();
    for _ in 0..10 {
      run(&mut Calls { random, source: "abcdefghijklmnop", text, moves: 1 }, steps, 40, &mut met);
    }
    assert!(met.not_filed > 100 && met.withdrawn.contains(&0), "{}", met.not_filed);
  }
}

/// Moves on a long source, so that the desk has as many chunks as it may have, in the end.
#[test]
fn full_desks_are_the_same() {
  let (random, source) = (&mut Random::new(3), &"abcdefgh".repeat(1_000));
  let mut met = Met::default();
  for _ in 0..3 {
    run(&mut Calls { random, source, text: 8, moves: 4 }, 230, 60, &mut met);
  }
  assert!(met.filed.contains(&13), "{:?}", met.filed);
}
