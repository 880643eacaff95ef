//! Records that are none, by their marks and otherwise, for every call that takes one; and
//! what is not looked at.

use oracle::Call::{self, *};

use crate::{
  layout::*,
  sittings::{
    Action, HARMS, KEPT_HARMS, Kept, Sitting, Written,
    reading::{MOST_CALLS, Reader},
    steps::{action, insert, remove},
  },
};

pub fn all() -> Vec<Sitting> {
  [too_high(), used(), lengths(), kept_desks(), desks(), sources()].concat()
}

const SOURCE: &str = "abcdé";

fn calls() -> [Call; 3] {
  [insert(1, b"i"), remove(0, 2), insert(2, b"jk")]
}

/// Every call that takes a record, with arguments that are in order.
pub fn every_action() -> [Action; 7] {
  [
    Action::file(&insert(2, b"f")),
    Action::Withdraw(1),
    Action::Freeze { start: 0, end: 1 },
    Action::SetMarks { k: 1, marks: 5 },
    Action::Show { reader: Reader::Member, k: 1, room: 40 },
    Action::Show { reader: Reader::Examiner, k: 1, room: 40 },
    Action::Total,
  ]
}

/// A sitting for each of these actions alone.
fn each(tries: &'static str, record: &Written) -> Vec<Sitting> {
  let of = |action| Sitting::fresh(tries, SOURCE, record.clone(), vec![action]);
  every_action().map(of).to_vec()
}

/// Marks that are too high at each place, behind the last call too, where they are not looked
/// at.
fn too_high() -> Vec<Sitting> {
  let mut all = Vec::new();
  for high in [100, 101, 102, 127, 128, 200, 255] {
    for count in [0, 1, 3] {
      for place in [0, 1, 2, 3, MOST_CALLS - 1] {
        let mut marks = vec![10; MOST_CALLS];
        marks[place] = high;
        let record = Written { marks, ..Written::calls(&calls()[..count]) };
        all.extend(each("marks that are too high", &record));
      }
    }
  }
  for place in [0, 100, MOST_CALLS - 1] {
    let mut marks = vec![100; MOST_CALLS];
    marks[place] = 101;
    let record = Written { marks, ..Written::calls(&vec![remove(0, 0); MOST_CALLS]) };
    all.extend(each("marks that are too high", &record));
  }
  all
}

/// Other counts of used bytes.
fn used() -> Vec<Sitting> {
  let right = Written::calls(&calls());
  let mut all = Vec::new();
  let far = [RECORD_ANSWERS as u32 + 1, 0x1_0000 + right.used, 0x8000_0000 + right.used, u32::MAX];
  for used in (0..right.used + 3).chain(far) {
    all.extend(each("records with other used bytes", &Written { used, ..right.clone() }));
  }
  all
}

/// Slices of other lengths, those that records had before among them.
fn lengths() -> Vec<Sitting> {
  let [words, bytes] = [RECORD_WORDS_LEN, RECORD_BYTES_LEN];
  let mut all = Vec::new();
  for lengths in [
    WITHOUT_KEPT,
    WITHOUT_MARKS,
    [0, bytes],
    [words - 1, bytes],
    [words + 1, bytes],
    [words, 0],
    [words, RECORD_MARKS],
    [words, KEPT_STORE],
    [words, bytes - 1],
    [words, bytes + 1],
    [words, bytes + MOST_CALLS],
  ] {
    for calls in [&calls()[..], &[]] {
      all.extend(each("records of other lengths", &Written { lengths, ..Written::calls(calls) }));
    }
  }
  all
}

/// Each harm of a kept desk: beside calls, and where it is not looked at.
fn kept_desks() -> Vec<Sitting> {
  let mut all = Vec::new();
  for harm in KEPT_HARMS.into_iter().map(Some).chain([None]) {
    for calls in [&calls()[..], &[]] {
      let record = Written { kept: Kept::Fresh, harm, ..Written::calls(calls) };
      all.extend(each("harmed kept desks", &record));
    }
  }
  all
}

/// Desks that are none beside a record: its own calls lend no desk, so that they look at the
/// source alone, and without calls not even at that.
fn desks() -> Vec<Sitting> {
  let filed = Written::calls(&calls());
  let short = Written { used: filed.used - 1, ..filed.clone() };
  let mut all = Vec::new();
  for record in [filed, short, Written::calls(&[])] {
    for harm in HARMS {
      let each = each("no desk", &record).into_iter();
      all.extend(each.map(|sitting| Sitting { harm: Some(harm), ..sitting }));
    }
  }
  // Neither kept desk nor source.
  for harm in HARMS {
    let record = Written { kept: Kept::Fresh, harm: Some(KEPT_HARMS[1]), ..Written::calls(&[]) };
    let each = each("no desk", &record).into_iter();
    all.extend(each.map(|sitting| Sitting { harm: Some(harm), ..sitting }));
  }
  all
}

/// The desk is opened anew with calls filed and marked: over its source, over one with the
/// same places between characters, and over others.
fn sources() -> Vec<Sitting> {
  let mut all = Vec::new();
  for source in [SOURCE, "ABCDÉ", "abcd", "abcdef", "aébcd", "", "abcdefgh"] {
    let open = action(Open { source: source.as_bytes().to_vec() });
    for last in every_action() {
      let mut actions: Vec<Action> = calls().iter().map(Action::file).collect();
      actions.extend([Action::SetMarks { k: 2, marks: 99 }, open.clone(), last, Action::Total]);
      let record = Written::calls(&[]);
      all.push(Sitting::fresh("another source with calls filed", SOURCE, record, actions));
    }
  }
  all
}
