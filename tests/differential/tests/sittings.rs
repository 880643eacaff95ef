//! The plain reading of filing and withdrawing gives what is written down here, and the
//! comparison finds no difference where there is none.

use std::time::Duration;

use differential::{
  Start,
  cores::StandIn,
  sittings::{
    Action, Compared, Memory, Sitting, chosen, compare,
    due::{FILING, WITHDRAWAL, filings, withdrawals},
    random,
    reading::{self, Record},
  },
};
use oracle::{
  APPEND_LEFT,
  Call::{self, *},
  Desk, Limits, apply,
  random::Random,
};

/// A desk that was fresh and a record that was empty.
struct Seat {
  desk: Desk,
  record: Record,
}

impl Seat {
  fn new(source: &str) -> Self {
    let desk = Desk::open(Limits::FULL, source.as_bytes()).expect("a source within the limits");
    Self { desk, record: Record::default() }
  }

  /// The number and the value.
  fn file(&mut self, call: &Call) -> [u32; 2] {
    let Action::File(bytes) = Action::file(call) else { unreachable!() };
    let answer = reading::file(Some(&mut self.desk), Some(&mut self.record), &bytes);
    [answer.number, answer.value]
  }

  fn withdraw(&mut self, k: u32) -> [u32; 2] {
    let answer = reading::withdraw(Some(&mut self.desk), Some(&mut self.record), k);
    [answer.number, answer.value]
  }

  fn text(&self) -> String {
    self.desk.magic_string().to_string()
  }

  fn answers(&self) -> Vec<u8> {
    self.record.entries.iter().map(|entry| entry.answer).collect()
  }
}

fn update(start: u32, end: u32, text: &str) -> Call {
  UpdateWith { start, end, overwrite: 1, text: text.into() }
}

fn insert(at: u32, text: &str) -> Call {
  Insert { at, text: text.into(), setting: APPEND_LEFT }
}

/// The answers of later calls turn both ways, and what is not filed is lost.
#[test]
fn written_answers() {
  let mut seat = Seat::new("abcdef");
  assert_eq!(seat.file(&update(1, 4, "X")), [0, 2]);
  assert_eq!(seat.file(&insert(2, "!")), [6, 0]);
  assert_eq!(seat.file(&update(1, 4, "")), [0, 0]);
  assert_eq!(seat.file(&insert(2, "?")), [0, 1]);
  assert_eq!(seat.file(&Remove { start: 5, end: 2 }), [4, 0]);
  assert_eq!((seat.text().as_str(), seat.answers()), ("a?ef", vec![0, 6, 0, 0, 4]));

  // The fourth call cuts the replacement that the third took away.
  assert_eq!(seat.withdraw(3), [0, 0]);
  assert_eq!((seat.text().as_str(), seat.answers()), ("aXef", vec![0, 6, 6, 4]));

  // Without the first, nothing stands in the way of the others.
  apply(&mut seat.desk, &Append { text: b"lost".to_vec() });
  assert_eq!(seat.withdraw(1), [0, 0]);
  assert_eq!((seat.text().as_str(), seat.answers()), ("ab!?cdef", vec![0, 0, 4]));

  assert_eq!(seat.withdraw(0), [17, 0]);
  assert_eq!(seat.withdraw(4), [17, 0]);
  assert_eq!(seat.withdraw(3), [0, 0]);
  assert_eq!(seat.withdraw(1), [0, 0]);
  assert_eq!(seat.withdraw(1), [0, 0]);
  assert_eq!((seat.text().as_str(), seat.answers()), ("abcdef", vec![]));
  assert_eq!(seat.withdraw(1), [17, 0]);
}

/// What was done before the first filing is kept, what was done between filings is lost.
#[test]
fn edits_before_the_first_filing_stay() {
  let mut seat = Seat::new("abcdef");
  apply(&mut seat.desk, &Append { text: b"!".to_vec() });
  apply(&mut seat.desk, &Freeze { start: 1, end: 2 });
  let before = seat.desk.data();
  assert_eq!(seat.file(&update(4, 5, "E")), [0, 2]);
  apply(&mut seat.desk, &Append { text: b"lost".to_vec() });
  assert_eq!(seat.file(&Remove { start: 0, end: 3 }), [20, 1]);
  assert_eq!((seat.text().as_str(), seat.answers()), ("abcdEf!lost", vec![0, 20]));
  assert_eq!(reading::freeze(Some(&mut seat.desk), Some(&seat.record), 0, 0).number, 20);
  assert_eq!(seat.withdraw(1), [0, 0]);
  assert_eq!((seat.text().as_str(), seat.answers()), ("abcdef!", vec![20]));
  assert_eq!(seat.withdraw(1), [0, 0]);
  assert_eq!(seat.desk.data(), before);
  assert!(seat.record.kept.is_none());
  assert_eq!(reading::freeze(Some(&mut seat.desk), Some(&seat.record), 0, 6).number, 0);
}

/// A desk that is changed by filing and withdrawing alone, from a fresh one, is what its
/// record gives when its calls are made, and so are the answers.
#[test]
fn the_record_gives_the_desk() {
  let mut done = 0;
  for sitting in (0..300).map(random) {
    let Start::Desk { desk, .. } = &sitting.start else { continue };
    let mut seat = Seat::new(&desk.source);
    for action in &sitting.actions {
      let (desk, record) = (Some(&mut seat.desk), Some(&mut seat.record));
      match action {
        Action::File(call) => _ = reading::file(desk, record, call),
        Action::Withdraw(k) => _ = reading::withdraw(desk, record, *k),
        _ => {}
      }
      let mut fresh = Seat::new(seat.desk.magic_string().source());
      let entries = seat.record.entries.iter();
      let given = entries.map(|entry| apply(&mut fresh.desk, &entry.call).number as u8);
      assert_eq!(given.collect::<Vec<_>>(), seat.answers(), "{sitting}");
      assert_eq!(fresh.desk.data(), seat.desk.data(), "{sitting}");
      done += 1;
    }
  }
  assert!(done > 1_000, "{done} filings and withdrawals");
}

/// The number of the one action, by the reading.
fn number(sitting: &Sitting) -> u32 {
  let (image, memory) = sitting.memory(&mut Random::new(1));
  let mut desk = sitting.harm.is_none().then(|| {
    let source = &image.source;
    Desk::open(Limits::FULL, source).expect("a source within the limits")
  });
  let mut record = reading::read(&image.source, memory.words.lent(), memory.bytes.lent());
  match &sitting.actions[..] {
    [Action::File(call)] => reading::file(desk.as_mut(), record.as_mut(), call).number,
    [Action::Withdraw(k)] => reading::withdraw(desk.as_mut(), record.as_mut(), *k).number,
    _ => panic!("one filing or withdrawal: {sitting}"),
  }
}

/// Of several refusals that are due, the first in the order is given.
#[test]
fn refusals_come_in_their_order() {
  for (sittings, order) in [(filings(), &FILING[..]), (withdrawals(), &WITHDRAWAL)] {
    for (choice, sitting) in sittings.iter().enumerate() {
      let due = order.iter().enumerate().find(|(bit, _)| choice >> bit & 1 == 1);
      assert_eq!(number(sitting), due.map_or(0, |(_, &number)| number), "{sitting}");
    }
  }
}

/// A record that is written is read back, and one that is read is written as it was.
#[test]
fn records_are_read_back() {
  let mut well_formed = 0;
  for sitting in chosen(&mut Random::new(1)) {
    let (image, memory) = sitting.memory(&mut Random::new(2));
    let read = |memory: &Memory| {
      let record = reading::read(&image.source, memory.words.lent(), memory.bytes.lent());
      record.map(|Record { entries, kept }| (entries, kept.map(|kept| kept.data())))
    };
    if let Some((entries, kept)) = read(&memory) {
      let mut written = Memory::empty(&mut Random::new(3));
      written.lend().write(&entries);
      written.lend().keep(&memory.kept(&image.source));
      assert_eq!(read(&written), Some((entries.clone(), kept)));
      let mut again = memory.clone();
      again.lend().write(&entries);
      assert_eq!(again, memory);
      well_formed += 1;
    }
  }
  assert!(well_formed > 500, "{well_formed} records are well formed");
}

#[test]
fn no_sitting_differs_and_everything_is_met() {
  let Compared { tally, different } = compare(&mut StandIn::new(2), 2, 1_500, Duration::MAX);
  if let Some((sitting, found)) = different {
    panic!("{sitting}{found:?}");
  }
  assert_eq!(tally.missing(), Vec::<String>::new());
}
