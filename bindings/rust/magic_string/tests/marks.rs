//! The examiner's column through the wrapper: marks written, read and summed, what filing and
//! withdrawing do to them, and that a member's view does not tell them.
//! magic_string-sys/tests/marks.rs has what the wrapper's types rule out.

use magic_string::{
  Call::{self, *},
  End::*,
  Entry, FilingError, MagicString, MarkedEntry, Refusal,
  Side::*,
  Sitting, layout,
};

const CALLS: [Call; 4] = [
  Update { start: 1, end: 4, text: "XY" },
  Relocate { start: 2, end: 3, to: 6 },
  Insert { at: 5, text: "é", side: Left, end: Back },
  Update { start: 1, end: 4, text: "Z" },
];

/// The calls, filed by a member; the second is refused.
fn filed() -> Sitting {
  let mut sitting = Sitting::open("abcdef").unwrap();
  let mut member = sitting.member();
  let refused = CALLS.iter().filter_map(|call| member.file(call).err());
  assert_eq!(refused.collect::<Vec<_>>(), [FilingError::Refused(Refusal::CutInReplacement)]);
  sitting
}

/// The same with these marks.
fn marked(marks: [u32; 4]) -> Sitting {
  let mut sitting = filed();
  let mut examiner = sitting.examiner();
  for (k, marks) in (1..).zip(marks) {
    examiner.set_marks(k, marks).unwrap();
  }
  sitting
}

/// The marks of the filed calls, read one by one and all together, and their total.
fn marks(sitting: &mut Sitting) -> Vec<u32> {
  let count = sitting.len();
  let mut examiner = sitting.examiner();
  let one_by_one: Vec<_> = (1..=count).map(|k| examiner.marked_entry(k).unwrap().marks).collect();
  let all = examiner.marked_entries().into_iter().map(|marked| marked.marks);
  assert_eq!(all.collect::<Vec<_>>(), one_by_one);
  assert_eq!(examiner.total(), one_by_one.iter().sum());
  one_by_one
}

#[test]
fn written_and_read() {
  let sitting = &mut filed();
  assert_eq!(marks(sitting), [0; 4]);
  let mut examiner = sitting.examiner();
  examiner.set_marks(1, 100).unwrap().set_marks(4, 1).unwrap().set_marks(1, 99).unwrap();
  assert_eq!(examiner.total(), 100);
  let refused = MarkedEntry {
    entry: Entry { call: CALLS[1], answer: Err(Refusal::CutInReplacement) },
    marks: 0,
  };
  assert_eq!(examiner.marked_entry(2), Ok(refused));
  assert_eq!(marks(sitting), [99, 0, 0, 1]);
  assert_eq!(Sitting::default().examiner().total(), 0);
}

/// The member reads the call and its answer, as the list of all entries has them.
#[test]
fn the_members_reading() {
  let sitting = &mut marked([1, 2, 3, 100]);
  let entries = sitting.clone();
  let mut member = sitting.member();
  for (k, entry) in (1..).zip(entries.entries()) {
    assert_eq!(member.entry(k), Ok(entry));
  }
  assert_eq!(member.entries(), entries.entries());
  assert_eq!((member.len(), member.is_empty()), (4, false));
  assert_eq!((member.desk(), member.start()), (entries.desk(), entries.start()));
  // The longest text of a call is read whole.
  let (text, mut sitting) = ("x".repeat(layout::RECORD_TEXT), Sitting::default());
  let call = Update { start: 0, end: 1, text: &text };
  let answer = Err(Refusal::PastSource);
  assert_eq!(sitting.file(&call).err(), Some(FilingError::Refused(Refusal::PastSource)));
  assert_eq!(sitting.member().entry(1), Ok(Entry { call, answer }));
  let entry = Entry { call, answer };
  assert_eq!(sitting.examiner().marked_entry(1), Ok(MarkedEntry { entry, marks: 0 }));
}

#[test]
fn refusals() {
  let sitting = &mut marked([1, 2, 3, 4]);
  let before = sitting.clone();
  let wrong = [0, 5, layout::RECORD_CALLS, u32::MAX as usize, u32::MAX as usize + 2, usize::MAX];
  for k in wrong {
    assert_eq!(sitting.member().entry(k), Err(Refusal::NoSuchCall), "{k}");
    let mut examiner = sitting.examiner();
    assert_eq!(examiner.marked_entry(k), Err(Refusal::NoSuchCall), "{k}");
    for marks in [0, 101] {
      assert_eq!(examiner.set_marks(k, marks).err(), Some(Refusal::NoSuchCall), "{k}");
    }
  }
  for marks in [101, 255, 256, u32::MAX] {
    let refused = sitting.examiner().set_marks(2, marks).err();
    assert_eq!(refused, Some(Refusal::MarksTooHigh), "{marks}");
  }
  assert_eq!(*sitting, before);
  assert_eq!(sitting.desk().tables(), before.desk().tables());
  sitting.examiner().set_marks(2, layout::HIGHEST_MARKS).unwrap();
  assert_ne!(*sitting, before);
}

/// Marking changes neither the desk nor what `cuts` tells of the last call.
#[test]
fn the_desk_stays() {
  let sitting = &mut Sitting::open("abcdef").unwrap();
  sitting.file(&Remove { start: 1, end: 3 }).unwrap();
  let before = sitting.desk().clone();
  sitting.examiner().set_marks(1, 50).unwrap();
  assert_eq!((sitting.desk().tables(), sitting.desk().cuts()), (before.tables(), 2));
  assert_eq!(sitting.start(), MagicString::new("abcdef").unwrap());
}

/// A withdrawn call takes its marks with it; the others keep theirs, though the second and
/// the last turn to the other answer.
#[test]
fn withdrawals() {
  let given = [10, 20, 30, 40];
  for k in 1..=4 {
    let (sitting, mut left) = (&mut marked(given), given.to_vec());
    sitting.member().withdraw(k).unwrap();
    left.remove(k - 1);
    assert_eq!(marks(sitting), left);
    // The next call has none.
    sitting.member().file(&CALLS[0]).ok();
    assert_eq!(marks(sitting)[3], 0);
  }
  let mut sitting = marked(given);
  sitting.member().withdraw(1).unwrap();
  let answers: Vec<_> = sitting.entries().iter().map(|entry| entry.answer).collect();
  assert_eq!(answers, [Ok(()), Ok(()), Err(Refusal::AcrossMovedEdge)]);
  for _ in 0..3 {
    sitting.withdraw(1).unwrap();
  }
  assert_eq!(sitting, Sitting::open("abcdef").unwrap());
}

/// 200 calls with the highest marks.
#[test]
fn the_highest_total() {
  let mut sitting = Sitting::open("abc").unwrap();
  let most = layout::RECORD_CALLS;
  for k in 1..=most {
    sitting.member().file(&Remove { start: 0, end: 0 }).unwrap();
    sitting.examiner().set_marks(k, layout::HIGHEST_MARKS).unwrap();
  }
  assert_eq!(sitting.examiner().total(), 20_000);
  assert_eq!(sitting.member().file(&CALLS[0]).err(), Some(FilingError::NotFiled));
  sitting.withdraw(most / 2).unwrap();
  assert_eq!(sitting.examiner().total(), 19_900);
}

/// What a member sees of some calls: each answer, and all that the view shows afterwards.
fn seen(sitting: &mut Sitting) -> Vec<String> {
  let mut member = sitting.member();
  let mut seen = vec![format!("{member:?}")];
  for k in 0..6 {
    seen.push(format!("{:?}", member.entry(k)));
  }
  seen.push(format!("{:?}", member.file(&Remove { start: 0, end: 2 })));
  for k in [2, 9, 1, 3] {
    let answer = member.withdraw(k).err();
    seen.push(format!("{answer:?} {member:?} {:?} {:?}", member.entries(), member.start()));
  }
  seen
}

/// Two sittings that differ in marks alone look alike to the member, and are told apart by
/// the examiner.
#[test]
fn the_member_learns_nothing() {
  let without = seen(&mut filed());
  for marks in [[0, 0, 0, 1], [100; 4], [7, 99, 0, 50]] {
    let mut sitting = marked(marks);
    assert_ne!(sitting, filed());
    assert_ne!(format!("{sitting:?}"), format!("{:?}", filed()));
    assert_eq!(seen(&mut sitting), without);
  }
}

/// A clone has marks of its own.
#[test]
fn clones() {
  let mut sitting = marked([1, 2, 3, 4]);
  let mut clone = sitting.clone();
  assert_eq!(marks(&mut clone), [1, 2, 3, 4]);
  clone.examiner().set_marks(1, 100).unwrap();
  assert_eq!((marks(&mut sitting)[0], marks(&mut clone)[0]), (1, 100));
}
