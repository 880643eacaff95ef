//! Every call of a member's beside two records that differ in nothing but marks, one of which
//! the examiner marks between.

use oracle::Call::{self, *};

use crate::{
  joins::Lists,
  sheets::fields::Fields,
  sittings::{
    Action, Sitting, Written, call_bytes,
    reading::{MOST_CALLS, Reader},
    steps::{action, freeze, insert, relocate, remove, update},
  },
};

pub fn all() -> Vec<Sitting> {
  [alone(), between(), empty()].concat()
}

const SOURCE: &str = "ab cdé";

/// On a fresh desk the first makes the second refused, and the third the fourth accepted.
fn calls() -> [Call; 4] {
  [update(0, 2, b"X"), insert(1, b"!"), update(0, 2, b""), insert(1, b"?")]
}

/// What a member may do with such a record: all of it, accepted and refused.
fn every_action() -> Vec<Action> {
  let sheet = |source: &str| {
    let sheet = Fields::of(source.as_bytes(), &[remove(0, 1), insert(2, b"s")]).bytes();
    Action::RunSheet { sheet, room: 2 }
  };
  let open = |source: &str| action(Open { source: source.as_bytes().to_vec() });
  let show = |k, room| Action::Show { reader: Reader::Member, k, room };
  let exact = call_bytes(&calls()[1]).len() + 1;
  let mut all = vec![
    Action::file(&relocate(0, 1, 3)),
    Action::file(&remove(2, 1)),
    Action::File(vec![0]),
    Action::file(&insert(0, &[b'x'; 40_000])),
    action(freeze(0, 1)),
    action(remove(0, 2)),
    action(Trim { pattern: 0 }),
    action(ToString { room: None }),
    action(ToString { room: Some(1) }),
    action(Len),
    Action::Join(Lists::of(&[insert(0, b"l")], &[insert(3, b"r")])),
    Action::Join(Lists::of(&[remove(0, 1)], &[remove(0, 1)])),
    open(SOURCE),
    open("AB CDÉ"),
    open("other"),
    action(Open { source: vec![0xff] }),
    sheet(SOURCE),
    sheet("other"),
    Action::RunSheet { sheet: vec![1, 0], room: 2 },
    Action::WellFormed,
  ];
  all.extend((1..=4).chain([0, 5, u32::MAX]).map(Action::Withdraw));
  all.extend((1..=4).chain([0, 5, u32::MAX]).map(|k| show(k, 40)));
  all.extend([exact - 1, exact, exact + 1, 0].map(|room| show(2, room)));
  all
}

fn marked(marks: &[u8]) -> Written {
  Written { marks: marks.to_vec(), ..Written::calls(&calls()) }
}

/// The record, and a second one with these marks.
fn beside(record: Written, other: &[u8], actions: Vec<Action>) -> Sitting {
  let sitting = Sitting::fresh("a member beside other marks", SOURCE, record, actions);
  Sitting { other_marks: Some(other.to_vec()), ..sitting }
}

/// Each alone, and what the member reads behind it.
fn alone() -> Vec<Sitting> {
  let mut all = Vec::new();
  for (marks, other) in [([100; 4], [0; 4]), ([0; 4], [1, 2, 3, 4]), ([9, 0, 7, 3], [0, 9, 3, 7])] {
    for action in every_action() {
      let show = |k| Action::Show { reader: Reader::Member, k, room: 40 };
      let actions = [action].into_iter().chain((1..=5).map(show)).collect();
      all.push(beside(marked(&marks), &other, actions));
    }
  }
  all
}

/// The examiner marks before each of them, reads and adds up; two of each in a row.
fn between() -> Vec<Sitting> {
  let actions = every_action();
  let mut all = Vec::new();
  for (place, action) in actions.iter().enumerate() {
    let next = &actions[(place * 7 + 3) % actions.len()];
    let set = |k, marks| Action::SetMarks { k, marks };
    let read = Action::Show { reader: Reader::Examiner, k: 1, room: 60 };
    let actions = vec![
      set(1, 100),
      set(3, 42),
      action.clone(),
      set(2, 7),
      set(1, 101),
      Action::Total,
      next.clone(),
      read,
      set(1, 0),
      Action::Withdraw(2),
      action.clone(),
    ];
    all.push(beside(marked(&[0; 4]), &[0; 4], actions));
  }
  all
}

/// Records without calls, whose marks are any bytes, and those of all calls.
fn empty() -> Vec<Sitting> {
  let filed = calls().map(|call| Action::file(&call));
  let set = |k| Action::SetMarks { k, marks: 100 - k };
  let frozen = [action(freeze(2, 3)), action(insert(1, b"p"))];
  let actions = frozen.into_iter().chain(filed).chain((1..=4).map(set));
  let actions: Vec<Action> = actions.chain(every_action()).collect();
  let full = vec![insert(0, b"x"); MOST_CALLS];
  let mut all = vec![beside(
    Written { marks: vec![100; MOST_CALLS], ..Written::calls(&full) },
    &[0; MOST_CALLS],
    [1, 100, 198].map(Action::Withdraw).into_iter().chain(every_action()).collect(),
  )];
  for (marks, other) in [(255, 0), (0, 255), (101, 100)] {
    let record = Written { marks: vec![marks; MOST_CALLS], ..Written::calls(&[]) };
    all.push(beside(record, &[other; MOST_CALLS], actions.clone()));
  }
  all
}
