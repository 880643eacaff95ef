//! The plain reading of marks gives what is written down here, and the comparison finds no
//! difference where there is none.

mod whole_sittings;

use std::time::Duration;

use differential::{
  Start,
  cores::StandIn,
  marks::{Compared, chosen, compare, due, random},
  sittings::{
    Action, Memory, Sitting,
    reading::{self, Reader, Record},
    steps::{insert, remove, update},
  },
};
use oracle::{Call, Desk, Limits, number::ACCEPTED, random::Random};
use whole_sittings::{nothing_is_missing, same_for_a_seed};

/// A desk that was fresh and a record that was empty.
struct Seat {
  desk: Option<Desk>,
  record: Record,
}

impl Seat {
  fn new(source: &str) -> Self {
    let desk = Desk::open(Limits::FULL, source.as_bytes()).expect("a source within the limits");
    Self { desk: Some(desk), record: Record::default() }
  }

  fn act(&mut self, action: &Action) -> oracle::Answer {
    action.read(&mut self.desk, Some(&mut self.record))
  }

  fn file(&mut self, call: &Call) -> u32 {
    self.act(&Action::file(call)).number
  }

  fn set(&mut self, k: u32, marks: u32) -> u32 {
    self.act(&Action::SetMarks { k, marks }).number
  }

  /// The number, and the bytes written.
  fn shown(&mut self, reader: Reader, k: u32, room: usize) -> (u32, Vec<u8>) {
    let answer = self.act(&Action::Show { reader, k, room });
    assert_eq!(answer.value as usize, answer.bytes.len());
    (answer.number, answer.bytes)
  }

  fn marks(&self) -> Vec<u8> {
    self.record.entries.iter().map(|entry| entry.marks).collect()
  }

  /// The sum of all marks.
  fn total(&mut self) -> u32 {
    let total = self.act(&Action::Total);
    assert_eq!(total.number, ACCEPTED);
    total.value
  }
}

/// Marks are 0 on filing, go with their calls, and are seen by the examiner alone.
#[test]
fn written_answers() {
  let mut seat = Seat::new("abcdef");
  assert_eq!((seat.total(), seat.set(1, 0)), (0, 17));
  assert_eq!(seat.file(&update(1, 4, b"XY")), 0);
  assert_eq!(seat.file(&insert(2, b"!")), 6);
  assert_eq!(seat.file(&remove(0, 1)), 0);
  assert_eq!(seat.marks(), [0, 0, 0]);
  assert_eq!([seat.set(1, 25), seat.set(2, 100), seat.set(3, 0)], [0, 0, 0]);
  assert_eq!(
    [seat.set(2, 101), seat.set(2, 256), seat.set(4, 101), seat.set(0, 1)],
    [21, 21, 17, 17]
  );
  assert_eq!((seat.marks(), seat.total()), (vec![25, 100, 0], 125));

  // A length, a kind, a position, a text, the answer; and the marks.
  let second = vec![0, 6, 4, 0, 0, 0, 2, b'!', 6];
  let marked = [&second[..], &[100]].concat();
  assert_eq!(seat.shown(Reader::Member, 2, 9), (0, second.clone()));
  assert_eq!(seat.shown(Reader::Member, 2, 8), (14, vec![]));
  assert_eq!(seat.shown(Reader::Examiner, 2, 10), (0, marked));
  assert_eq!(seat.shown(Reader::Examiner, 2, 9), (14, vec![]));
  assert_eq!(seat.shown(Reader::Member, 4, 0), (17, vec![]));
  let first = vec![0, 11, 2, 0, 0, 0, 1, 0, 0, 0, 4, b'X', b'Y', 0];
  assert_eq!(seat.shown(Reader::Member, 1, 50), (0, first));

  // Without the first the second is accepted, and keeps its marks.
  assert_eq!(seat.act(&Action::Withdraw(1)).number, 0);
  assert_eq!((seat.marks(), seat.total()), (vec![100, 0], 100));
  let accepted = [&second[..8], &[0]].concat();
  assert_eq!(seat.shown(Reader::Member, 1, 9), (0, accepted));
  assert_eq!(seat.file(&insert(0, b"")), 0);
  assert_eq!((seat.marks(), seat.total()), (vec![100, 0, 0], 100));
  assert_eq!(seat.act(&Action::Withdraw(1)).number, 0);
  assert_eq!((seat.marks(), seat.total()), (vec![0, 0], 0));
}

/// A withdrawal takes exactly the marks of its call out, whatever becomes of the others'
/// answers, and nothing else but marking changes the total.
#[test]
fn marks_stay_with_their_calls() {
  let mut withdrawn = 0;
  for sitting in (0..1_000).map(random) {
    let Start::Desk { desk, .. } = &sitting.start else { continue };
    let mut seat = Seat::new(&desk.source);
    for action in sitting.actions.iter().filter(|action| !action.is_opening()) {
      let (mut marks, before) = (seat.marks(), seat.total());
      let number = seat.act(action).number;
      match *action {
        Action::Withdraw(k) if number == ACCEPTED => {
          let taken = marks.remove(k as usize - 1);
          assert_eq!(seat.total(), before - u32::from(taken), "{sitting}");
          withdrawn += (taken > 0) as usize;
        }
        Action::SetMarks { k, marks: new } if number == ACCEPTED => {
          marks[k as usize - 1] = new as u8
        }
        _ => marks.resize(seat.marks().len(), 0),
      }
      assert_eq!(seat.marks(), marks, "{sitting}");
    }
  }
  assert!(withdrawn > 100, "{withdrawn} withdrawals of calls with marks");
}

/// The number of the one action, by the reading.
fn number(sitting: &Sitting) -> u32 {
  let (image, memory) = sitting.memory(&mut Random::new(1));
  let mut record = reading::read(&image.source, memory.words.lent(), memory.bytes.lent());
  sitting.actions[0].read(&mut None, record.as_mut()).number
}

/// Of several refusals that are due, the first in the order is given.
#[test]
fn refusals_come_in_their_order() {
  for (sittings, order) in due::one_each() {
    for (choice, sitting) in sittings.iter().enumerate() {
      let due = order.iter().enumerate().find(|(bit, _)| choice >> bit & 1 == 1);
      assert_eq!(number(sitting), due.map_or(0, |(_, &number)| number), "{sitting}");
    }
  }
}

/// Marks are looked at beside calls, and nowhere else.
#[test]
fn marks_are_read() {
  let mut met = [0; 2];
  for sitting in chosen(&mut Random::new(6)) {
    let (image, memory) = sitting.memory(&mut Random::new(7));
    let read = |memory: &Memory| {
      reading::read(&image.source, memory.words.lent(), memory.bytes.lent())
        .map(|record| record.entries.len())
    };
    let Some(count) = read(&memory.clone().with_marks(&[0; 200])) else { continue };
    let fits = memory.marks()[..count].iter().all(|&marks| marks <= 100);
    assert_eq!(read(&memory).is_some(), fits, "{sitting}");
    met[fits as usize] += 1;
  }
  assert!(met.iter().all(|&met| met > 200), "{met:?}");
}

/// Compares the chosen sittings and so many random ones.
fn compared(count: u64) -> Compared {
  compare(&mut StandIn::new(2), 2, count, Duration::MAX)
}

#[test]
fn no_sitting_differs_and_everything_is_met() {
  nothing_is_missing(compared);
}

#[test]
fn sittings_are_the_same_for_a_seed() {
  same_for_a_seed(random, chosen);
}
