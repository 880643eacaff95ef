//! Every choice of what the calls of the column can be refused for, all due at once.

use std::array;

use crate::sittings::{
  Action, Sitting, Written,
  reading::{MOST_CALLS, Reader},
  steps::insert,
};

/// What marking is refused for, in the order in which the numbers come: a record that is none,
/// a number without a call, marks that are too high.
pub const MARKING: [u32; 3] = [2, 17, 21];

/// The same of a reading of an entry, the last for a buffer that is too short.
pub const READING: [u32; 3] = [2, 17, 14];

/// Ways in which a record is none: a call that is cut short, marks that are too high, and
/// another length.
const NO_RECORD: [fn(&mut Written); 3] = [
  |record| record.used -= 1,
  |record| record.marks[2] = 101,
  |record| record.lengths[1] -= MOST_CALLS,
];

pub fn all() -> Vec<Sitting> {
  let mut all = Vec::new();
  for no_record in NO_RECORD {
    for no_call in [0, 4, u32::MAX] {
      all.extend(markings(no_record, no_call));
      for reader in [Reader::Member, Reader::Examiner] {
        all.extend(readings(reader, no_record, no_call));
      }
    }
  }
  all
}

/// The bits of a choice are the places of `MARKING`.
pub fn markings(no_record: fn(&mut Written), no_call: u32) -> Vec<Sitting> {
  choices(no_record, |[is_no_call, is_too_high]| {
    let k = if is_no_call { no_call } else { 3 };
    Action::SetMarks { k, marks: if is_too_high { 101 } else { 100 } }
  })
}

/// The bits of a choice are the places of `READING`.
pub fn readings(reader: Reader, no_record: fn(&mut Written), no_call: u32) -> Vec<Sitting> {
  choices(no_record, |[is_no_call, is_short]| {
    let k = if is_no_call { no_call } else { 3 };
    Action::Show { reader, k, room: if is_short { 0 } else { 40 } }
  })
}

/// Those of one way each.
pub fn one_each() -> [(Vec<Sitting>, [u32; 3]); 3] {
  let [first, ..] = NO_RECORD;
  [
    (markings(first, 0), MARKING),
    (readings(Reader::Member, first, 0), READING),
    (readings(Reader::Examiner, first, 0), READING),
  ]
}

/// The action by whether its own two refusals are due, beside a record that is one or none.
fn choices(no_record: fn(&mut Written), action: impl Fn([bool; 2]) -> Action) -> Vec<Sitting> {
  let choice = |choice: usize| {
    let [is_no_record, own, other] = array::from_fn(|bit| choice >> bit & 1 == 1);
    let filed = Written::calls(&vec![insert(3, b"x"); 3]);
    let mut record = Written { marks: vec![0, 50, 100], ..filed };
    if is_no_record {
      no_record(&mut record);
    }
    let actions = vec![action([own, other])];
    Sitting::fresh("refusals at once", "abcdef", record, actions)
  };
  (0..8).map(choice).collect()
}
