//! Marks written and added up: the lowest and the highest, those that are too high, and every
//! number of a call.

use crate::sittings::{
  Action, Sitting, Written,
  reading::{MOST_CALLS, Reader},
  steps::insert,
};

pub fn all() -> Vec<Sitting> {
  [bounds(), numbers(), totals()].concat()
}

const SOURCE: &str = "abcdef";

/// Marks that may be, and that are too high: some of these have others in their low 8 or 16
/// bits.
pub const MARKS: [u32; 18] = [
  0,
  1,
  50,
  99,
  100,
  101,
  127,
  128,
  255,
  256,
  257,
  356,
  357,
  1_000,
  0x1_0000,
  0x1_0064,
  0x8000_0000,
  u32::MAX,
];

/// So many calls are filed, each with these marks.
fn filed(count: usize, marks: u8) -> Written {
  let calls: Vec<_> = (0..count).map(|place| insert(place as u32 % 8, b"x")).collect();
  Written { marks: vec![marks; count], ..Written::calls(&calls) }
}

/// Each of them over others, with what both readings and the total are behind it.
fn bounds() -> Vec<Sitting> {
  let mut all = Vec::new();
  for before in [0, 7, 100] {
    for marks in MARKS {
      let show = |reader| Action::Show { reader, k: 2, room: 40 };
      let set = Action::SetMarks { k: 2, marks };
      let readings = [show(Reader::Examiner), show(Reader::Member), Action::Total];
      let actions = [set.clone()].into_iter().chain(readings).chain([set]).collect();
      all.push(Sitting::fresh("marks at their bounds", SOURCE, filed(3, before), actions));
    }
  }
  all
}

/// Each number beside a count, and numbers that have one of these in their low 8, 16 or 31
/// bits.
fn numbers() -> Vec<Sitting> {
  let mut all = Vec::new();
  for count in [0, 1, 2, 3, MOST_CALLS - 1, MOST_CALLS] {
    let near = [0, 1, 2, count / 2, count.saturating_sub(1), count, count + 1, MOST_CALLS + 1];
    let near = near.map(|k| k as u32);
    let far = near.into_iter().flat_map(|k| [k | 0x100, k | 0x1_0000, k | 0x8000_0000]);
    for k in near.into_iter().chain(far).chain([u32::MAX, u32::MAX - 1]) {
      let show = |reader| Action::Show { reader, k, room: 40 };
      let set = |marks| Action::SetMarks { k, marks };
      let readings = [show(Reader::Member), show(Reader::Examiner), Action::Total];
      let actions = readings.into_iter().chain([101, 100, 3].map(set)).chain([Action::Total]);
      let record = filed(count, 4);
      all.push(Sitting::fresh("the number of an entry", SOURCE, record, actions.collect()));
    }
  }
  all
}

/// Sums of all calls that there may be, below and above what 8 bits hold.
fn totals() -> Vec<Sitting> {
  let mut all = Vec::new();
  for (count, marks) in [(0, 0), (1, 100), (2, 100), (3, 85), (4, 64), (MOST_CALLS, 100)] {
    let k = count as u32;
    let actions = vec![
      Action::Total,
      Action::SetMarks { k, marks: 3 },
      Action::Total,
      Action::Withdraw(1),
      Action::Total,
      Action::file(&insert(0, b"y")),
      Action::Total,
    ];
    all.push(Sitting::fresh("totals", SOURCE, filed(count, marks), actions));
  }
  all
}
