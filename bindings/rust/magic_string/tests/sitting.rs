//! Calls filed and withdrawn through the wrapper: what a sitting shows afterwards, each
//! number that filing and withdrawing have here, and the limits of a record beside those
//! of the desk. magic_string-sys/tests/record.rs has what the wrapper's types rule out.

use std::collections::BTreeSet;

use magic_string::{
  Call::{self, *},
  End::{self, *},
  Entry, FilingError, MagicString, Refusal,
  Side::{self, *},
  Sitting, UpdateOptions, layout,
};

const SETTINGS: [(Side, End); 4] = [(Left, Front), (Left, Back), (Right, Front), (Right, Back)];

fn open(source: &str) -> Sitting {
  Sitting::open(source).unwrap()
}

/// A sitting that begins on a desk with texts and a frozen chunk.
fn begun() -> Sitting {
  let mut desk = MagicString::new("abcdefgh").unwrap();
  desk.remove(6, 8).unwrap().append("!").unwrap().freeze(2, 4).unwrap();
  Sitting::from(desk)
}

/// A call's answer, whether it is filed, and its cuts.
fn file(sitting: &mut Sitting, call: Call) -> (Result<(), FilingError>, usize) {
  let answer = sitting.file(&call).map(drop);
  (answer, sitting.desk().cuts())
}

/// Files calls that are accepted.
fn done(sitting: &mut Sitting, calls: &[Call]) {
  for call in calls {
    assert_eq!(sitting.file(call).map(drop), Ok(()), "{call}");
  }
}

/// The refusal of a call, which is filed with it.
fn refused(sitting: &mut Sitting, call: Call) -> Refusal {
  let before = sitting.len();
  let Err(FilingError::Refused(refusal)) = file(sitting, call).0 else { panic!("{call}") };
  assert_eq!(sitting.len(), before + 1);
  assert_eq!(sitting.entries()[before], Entry { call, answer: Err(refusal) });
  refusal
}

/// That a call is not filed, and changes nothing.
fn not_filed(sitting: &mut Sitting, call: Call) {
  let before = sitting.clone();
  assert_eq!(file(sitting, call), (Err(FilingError::NotFiled), 0));
  assert_eq!(*sitting, before);
  assert_eq!(sitting.desk().tables(), before.desk().tables());
}

fn answers(sitting: &Sitting) -> Vec<Result<(), Refusal>> {
  sitting.entries().iter().map(|entry| entry.answer).collect()
}

fn insert(at: u32, text: &str) -> Call<'_> {
  Insert { at, text, side: Left, end: Back }
}

/// The same edit on a desk without record.
fn edit(desk: &mut MagicString, call: &Call) -> Result<(), Refusal> {
  let done = match *call {
    Remove { start, end } => desk.remove(start, end),
    Update { start, end, text } => {
      desk.update_with(start, end, text, UpdateOptions { overwrite: true })
    }
    Reset { start, end } => desk.reset(start, end),
    Insert { at, text, side, end } => desk.insert(at, text, side, end),
    Relocate { start, end, to } => desk.relocate(start, end, to),
  };
  done.map(drop)
}

#[test]
fn a_fresh_sitting() {
  let sitting = open("é");
  assert_eq!(*sitting.desk(), MagicString::new("é").unwrap());
  assert_eq!((sitting.len(), sitting.is_empty(), sitting.entries()), (0, true, vec![]));
  assert_eq!(Sitting::default(), open(""));
  assert_eq!(Sitting::open("a".repeat(layout::SOURCE_BYTES + 1)), Err(Refusal::Limit));
}

/// Each kind of call is the edit of its name, cuts and all, and is shown as it was filed.
#[test]
fn every_kind() {
  let mut calls = vec![
    Remove { start: 1, end: 2 },
    Update { start: 2, end: 4, text: "é\n" },
    Update { start: 0, end: 1, text: "" },
    Reset { start: 1, end: 4 },
    Relocate { start: 4, end: 6, to: u32::MAX },
    Relocate { start: 5, end: 5, to: 0 },
  ];
  calls.extend(SETTINGS.map(|(side, end)| Insert { at: 2, text: "\"", side, end }));
  calls.push(insert(u32::MAX, ""));
  let (mut sitting, mut desk) = (open("abcdef"), MagicString::new("abcdef").unwrap());
  for &call in &calls {
    let answer = edit(&mut desk, &call);
    assert_eq!(file(&mut sitting, call), (answer.map_err(FilingError::Refused), desk.cuts()));
    assert_eq!(*sitting.desk(), desk, "{call}");
    assert_eq!(sitting.entries().last(), Some(&Entry { call, answer }));
  }
  assert_eq!(sitting.entries().iter().map(|entry| entry.call).collect::<Vec<_>>(), calls);
  assert_eq!((sitting.len(), sitting.is_empty()), (calls.len(), false));
}

#[test]
fn a_call_is_shown_as_a_line_of_a_script() {
  let mut lines = vec![
    (Remove { start: 1, end: 4 }, "remove 1 4"),
    (Update { start: 1, end: 4, text: "\"\n" }, "update 1 4 \"\\\"\\n\""),
    (Reset { start: 0, end: u32::MAX }, "reset 0 4294967295"),
    (Relocate { start: 0, end: 2, to: 3 }, "relocate 0 2 3"),
  ];
  let names =
    ["prepend_left 2 \"\"", "append_left 2 \"\"", "prepend_right 2 \"\"", "append_right 2 \"\""];
  let inserts = SETTINGS.map(|(side, end)| Insert { at: 2, text: "", side, end });
  lines.extend(inserts.into_iter().zip(names));
  for (call, line) in lines {
    assert_eq!(call.to_string(), line);
  }
}

/// Every number that a call through the wrapper can have on a desk that began fresh, each
/// filed.
#[test]
fn refused_calls_are_filed() {
  let sitting = &mut open("aébcdefgh");
  done(sitting, &[Update { start: 4, end: 7, text: "X" }, Relocate { start: 9, end: 10, to: 0 }]);
  let calls = [
    (Remove { start: 0, end: 2 }, Refusal::InsideCharacter),
    (Reset { start: 3, end: 1 }, Refusal::EndBeforeStart),
    (Update { start: 3, end: 3, text: "" }, Refusal::ZeroWidth),
    (insert(5, ""), Refusal::CutInReplacement),
    (Update { start: 8, end: 10, text: "Y" }, Refusal::AcrossMovedEdge),
    (Relocate { start: 1, end: 4, to: 3 }, Refusal::IntoItself),
    (Relocate { start: 8, end: 10, to: 1 }, Refusal::NotTogether),
    (Reset { start: 1, end: 11 }, Refusal::PastSource),
  ];
  for (call, refusal) in calls {
    assert_eq!(refused(sitting, call), refusal, "{call}");
  }
  let met: BTreeSet<u32> = calls.iter().map(|(_, refusal)| refusal.number()).collect();
  assert_eq!(met, (3..=10).collect());
  assert_eq!(sitting.desk().to_string(), "haébXfg");
}

/// The cuts of a refused call that remain.
#[test]
fn cuts() {
  let sitting = &mut open("abcdef");
  assert_eq!(file(sitting, Update { start: 2, end: 4, text: "X" }), (Ok(()), 2));
  let refused = Err(FilingError::Refused(Refusal::CutInReplacement));
  assert_eq!(file(sitting, Remove { start: 1, end: 3 }), (refused, 1));
  assert_eq!(file(sitting, Remove { start: 1, end: 3 }), (refused, 0));
  assert_eq!(file(sitting, Relocate { start: 5, end: 6, to: 0 }), (Ok(()), 1));
  // A withdrawal reports none, accepted or refused.
  assert_eq!(sitting.withdraw(1).unwrap().desk().cuts(), 0);
  assert_eq!(file(sitting, insert(4, "")), (Ok(()), 1));
  assert_eq!(sitting.withdraw(9).err(), Some(Refusal::NoSuchCall));
  assert_eq!(sitting.desk().cuts(), 0);
}

/// A later call turns from refused to accepted, and another one the other way.
#[test]
fn answers_change_by_a_withdrawal() {
  let sitting = &mut open("abcdef");
  let replace = |text| Update { start: 1, end: 4, text };
  let (moved, added) = (Relocate { start: 2, end: 3, to: 6 }, insert(2, "!"));
  done(sitting, &[replace("XY")]);
  assert_eq!(refused(sitting, moved), Refusal::CutInReplacement);
  assert_eq!(refused(sitting, added), Refusal::CutInReplacement);
  done(sitting, &[replace("Z")]);
  assert_eq!(sitting.desk().to_string(), "aZef");

  sitting.withdraw(1).unwrap();
  assert_eq!(sitting.desk().to_string(), "ab!defc");
  let entry = |call, answer| Entry { call, answer };
  assert_eq!(
    sitting.entries(),
    [
      entry(moved, Ok(())),
      entry(added, Ok(())),
      entry(replace("Z"), Err(Refusal::AcrossMovedEdge))
    ]
  );
  // Without the move the replacement is accepted again.
  sitting.withdraw(1).unwrap();
  assert_eq!(sitting.entries(), [entry(added, Ok(())), entry(replace("Z"), Ok(()))]);
  assert_eq!(sitting.desk().to_string(), "aZef");
}

/// A withdrawal starts from the desk that the sitting began on, frozen chunks and all.
#[test]
fn begun_on_a_desk() {
  let sitting = &mut begun();
  let start = sitting.desk().clone();
  assert_eq!((sitting.start(), sitting.is_empty()), (start.clone(), true));
  done(sitting, &[insert(1, "x")]);
  assert_eq!(refused(sitting, Remove { start: 0, end: 3 }), Refusal::Frozen);
  assert_eq!(sitting.desk().cuts(), 1);
  done(sitting, &[Relocate { start: 2, end: 4, to: 0 }, Reset { start: 6, end: 8 }]);
  assert_eq!((sitting.desk().to_string(), sitting.start()), ("cdaxbefgh!".into(), start.clone()));

  sitting.withdraw(1).unwrap();
  assert_eq!(sitting.desk().to_string(), "cdabefgh!");
  assert_eq!(answers(sitting), [Err(Refusal::Frozen), Ok(()), Ok(())]);
  for left in (0..3).rev() {
    sitting.withdraw(1).unwrap();
    assert_eq!((sitting.len(), sitting.start()), (left, start.clone()));
  }
  assert_eq!(*sitting.desk(), start);
  assert_eq!(*sitting, begun());
}

/// Freezing is free while no call is filed, and only then.
#[test]
fn freezing() {
  let sitting = &mut open("aébcd");
  assert_eq!(sitting.freeze(3, 4).unwrap().desk().cuts(), 2);
  assert_eq!(sitting.freeze(1, 2).err(), Some(Refusal::InsideCharacter));
  done(sitting, &[insert(1, "x")]);
  let before = sitting.clone();
  for (start, end) in [(0, 1), (3, 4), (2, 2), (1, 2), (3, 0), (0, 9), (4, 4)] {
    assert_eq!(sitting.freeze(start, end).err(), Some(Refusal::Frozen), "{start} {end}");
    assert_eq!(sitting.desk().cuts(), 0);
    assert_eq!(*sitting, before);
    assert_eq!(sitting.desk().tables(), before.desk().tables());
  }
  sitting.withdraw(1).unwrap().freeze(0, 1).unwrap();
  let frozen = sitting.desk().chunks().filter(|chunk| chunk.frozen).map(|chunk| chunk.start());
  assert_eq!(frozen.collect::<Vec<_>>(), [0, 3]);
}

/// The same desk and the same calls, begun on another desk, are another sitting: the same
/// withdrawal leaves something else.
#[test]
fn equality_is_of_what_it_began_on() {
  let removal = Remove { start: 0, end: 1 };
  let mut removed = MagicString::new("abc").unwrap();
  removed.remove(0, 1).unwrap();
  let (mut one, mut other) = (open("abc"), Sitting::from(removed));
  done(&mut one, &[removal]);
  done(&mut other, &[removal]);
  assert_eq!((one.desk(), one.entries()), (other.desk(), other.entries()));
  assert_ne!(one, other);
  let texts = [one, other].map(|mut sitting| sitting.withdraw(1).unwrap().desk().to_string());
  assert_eq!(texts, ["abc", "bc"]);
}

/// Each of some calls taken out of a sitting leaves one to which the others alone were
/// filed.
#[test]
fn without_any_one() {
  let calls = [
    Update { start: 1, end: 5, text: "XY" },
    insert(3, "!"),
    Relocate { start: 2, end: 4, to: 8 },
    Remove { start: 0, end: 2 },
    Reset { start: 1, end: 9 },
    Update { start: 2, end: 5, text: "" },
    insert(0, "head"),
  ];
  for begun in [open("abcdefgh"), begun()] {
    let filed = |calls: &mut dyn Iterator<Item = &Call>| {
      let mut sitting = begun.clone();
      calls.for_each(|call| drop(sitting.file(call)));
      sitting
    };
    let all = filed(&mut calls.iter());
    for k in 1..=calls.len() {
      let mut sitting = all.clone();
      sitting.withdraw(k).unwrap();
      assert_eq!(sitting, filed(&mut calls[..k - 1].iter().chain(&calls[k..])), "{k}");
    }
    // All of them, from the front and from the back.
    for last in [false, true] {
      let mut sitting = all.clone();
      for left in (1..=calls.len()).rev() {
        sitting.withdraw(if last { left } else { 1 }).unwrap();
        assert_eq!(sitting.len(), left - 1);
      }
      assert_eq!(sitting, begun);
    }
  }
}

#[test]
fn no_such_call() {
  let sitting = &mut open("abc");
  done(sitting, &[Remove { start: 0, end: 1 }, insert(2, "x")]);
  let before = sitting.clone();
  for k in [0, 3, 4, u32::MAX as usize, u32::MAX as usize + 1, u32::MAX as usize + 2, usize::MAX] {
    assert_eq!(sitting.withdraw(k).err(), Some(Refusal::NoSuchCall), "{k}");
    assert_eq!(*sitting, before);
    assert_eq!(sitting.desk().tables(), before.desk().tables());
  }
  sitting.withdraw(2).unwrap();
  assert_eq!(sitting.withdraw(2).err(), Some(Refusal::NoSuchCall));
  sitting.withdraw(1).unwrap();
  assert_eq!(sitting.withdraw(1).err(), Some(Refusal::NoSuchCall));
}

/// 200 calls are filed, refused ones too, and no more.
#[test]
fn the_record_is_full_of_calls() {
  let sitting = &mut open("abc");
  for _ in 0..layout::RECORD_CALLS / 2 {
    done(sitting, &[insert(1, "")]);
    assert_eq!(refused(sitting, Remove { start: 2, end: 1 }), Refusal::EndBeforeStart);
  }
  assert_eq!(sitting.len(), layout::RECORD_CALLS);
  not_filed(sitting, insert(1, ""));
  // Nor one that would be refused, which is not found out.
  not_filed(sitting, Remove { start: 2, end: 1 });
  sitting.withdraw(layout::RECORD_CALLS).unwrap();
  done(sitting, &[Relocate { start: 0, end: 1, to: 3 }]);
  not_filed(sitting, insert(1, ""));
  sitting.withdraw(1).unwrap();
  assert_eq!(sitting.len(), layout::RECORD_CALLS - 1);
}

/// Texts count in the record though the desk has lost them.
#[test]
fn the_record_is_full_of_text() {
  let (sitting, half) = (&mut open("abc"), "x".repeat(layout::RECORD_TEXT / 2));
  for _ in 0..2 {
    done(sitting, &[Update { start: 0, end: 3, text: &half }]);
  }
  assert_eq!(sitting.desk().len(), layout::RECORD_TEXT / 2);
  not_filed(sitting, insert(0, "y"));
  not_filed(sitting, Update { start: 3, end: 0, text: "y" });
  done(sitting, &[insert(0, ""), Reset { start: 0, end: 3 }]);
  sitting.withdraw(1).unwrap();
  done(sitting, &[insert(0, &half)]);

  // A text that is too long for the record, for a sheet, and for its records' length.
  let sitting = &mut open("abc");
  let most = usize::from(u16::MAX);
  for length in [layout::RECORD_TEXT + 1, layout::SHEET_BYTES, most - 9, most - 8, most - 4, most] {
    let text = "x".repeat(length);
    not_filed(sitting, Update { start: 0, end: 1, text: &text });
    not_filed(sitting, insert(0, &text));
  }
  assert_eq!(file(sitting, insert(0, &"x".repeat(layout::RECORD_TEXT))), (Ok(()), 0));
}

/// A desk that would break its limits, too, gives 13, and that call is filed.
#[test]
fn the_two_13_are_told_apart() {
  // Each move makes three cuts, so that one more is too many.
  let source = "a".repeat(2_000);
  let sitting = &mut open(&source);
  let moved = |at| Relocate { start: at, end: at + 3, to: at + 6 };
  for at in (1..=1_530).step_by(9) {
    done(sitting, &[moved(at)]);
  }
  assert_eq!(sitting.desk().chunks().count(), layout::CHUNKS - 1);
  assert_eq!(file(sitting, moved(1_600)).0, Err(FilingError::Refused(Refusal::Limit)));
  assert_eq!((sitting.len(), sitting.desk().cuts()), (171, 0));
  for _ in 171..layout::RECORD_CALLS {
    assert_eq!(refused(sitting, moved(1_600)), Refusal::Limit);
  }
  not_filed(sitting, moved(1_600));
  assert_eq!(FilingError::NotFiled.refusal(), FilingError::Refused(Refusal::Limit).refusal());

  // Without one move there is room on the desk for another one, which needs no more cuts
  // when it is made again.
  sitting.withdraw(1).unwrap();
  assert_eq!(answers(sitting), [Ok(()); layout::RECORD_CALLS - 1]);
}

#[test]
fn errors_in_words() {
  let refused: &dyn std::error::Error = &FilingError::Refused(Refusal::PastSource);
  assert_eq!(refused.to_string(), "end past source");
  let words = "the record would break a limit, the call is not filed";
  assert_eq!(FilingError::NotFiled.to_string(), words);
}

#[test]
fn a_clone_is_a_sitting_of_its_own() {
  let mut sitting = open("abc");
  done(&mut sitting, &[insert(1, "x")]);
  let before = sitting.clone();
  done(&mut sitting, &[insert(1, "y")]);
  assert_ne!(sitting, before);
  sitting.withdraw(2).unwrap();
  assert_eq!(sitting, before);
  // The same text by another call is another sitting.
  let mut other = open("abc");
  done(&mut other, &[Insert { at: 1, text: "x", side: Left, end: Front }]);
  assert_eq!(other.desk(), sitting.desk());
  assert_ne!(other, sitting);
}
