//! What filing and withdrawing make of marks.

use oracle::Call;

use crate::sittings::{
  Action, Sitting, Written,
  reading::{MOST_CALLS, Reader},
  steps::{action, insert, relocate, remove, update},
};

pub fn all() -> Vec<Sitting> {
  [filings(), withdrawals(), of_all(), turned(), refused()].concat()
}

const SOURCE: &str = "abcdef";

/// Each with marks of its own.
fn marks(count: usize) -> Vec<u8> {
  (0..count).map(|place| (97 * (place + 1) % 101) as u8).collect()
}

fn show(k: usize) -> [Action; 2] {
  [Reader::Member, Reader::Examiner].map(|reader| Action::Show { reader, k: k as u32, room: 40 })
}

/// A call is filed beside others, some with marks, where any bytes stand behind the last: one
/// that no entry has too.
fn filings() -> Vec<Sitting> {
  let mut all = Vec::new();
  for count in [0, 1, 2, 5, MOST_CALLS - 1, MOST_CALLS] {
    for behind in [0, 1, 100, 101, 255] {
      let filed = vec![insert(1, b"x"); count];
      let mut marks = marks(count);
      marks.resize(MOST_CALLS, behind);
      let record = Written { marks, ..Written::calls(&filed) };
      let file = [insert(0, b"y"), remove(2, 1)].map(|call| Action::file(&call));
      let actions = file.into_iter().chain(show(count + 1)).chain([Action::Total]).collect();
      all.push(Sitting::fresh("filings beside marks", SOURCE, record, actions));
    }
  }
  all
}

/// Each call of some is withdrawn, and all of them in some orders; others are filed between.
fn withdrawals() -> Vec<Sitting> {
  let count = 4;
  let filed: Vec<Call> = (0..count).map(|place| insert(place as u32, b"xyz")).collect();
  let record = Written { marks: marks(count), ..Written::calls(&filed) };
  let mut all = Vec::new();
  let orders: [&[u32]; 8] =
    [&[1], &[2], &[3], &[4], &[1, 1, 1, 1, 1], &[4, 3, 2, 1], &[2, 2, 1, 1], &[3, 1, 2, 1]];
  for order in orders {
    let mut actions = Vec::new();
    for &k in order {
      actions.extend([Action::Withdraw(k), Action::Total]);
      actions.extend(show(k as usize));
    }
    all.push(Sitting::fresh("marks of withdrawn calls", SOURCE, record.clone(), actions.clone()));
    actions.insert(2, Action::file(&insert(0, b"new")));
    actions.extend([Action::SetMarks { k: 1, marks: 100 }, Action::Total]);
    all.push(Sitting::fresh("marks of withdrawn calls", SOURCE, record.clone(), actions));
  }
  all
}

/// One of as many calls as there may be.
fn of_all() -> Vec<Sitting> {
  let filed = vec![insert(1, b"x"); MOST_CALLS];
  let record = Written { marks: marks(MOST_CALLS), ..Written::calls(&filed) };
  let of = |k: u32| {
    let actions = [Action::Withdraw(k), Action::Total].into_iter().chain(show(k as usize));
    let actions = actions.chain([Action::file(&insert(0, b"new")), Action::Total]);
    Sitting::fresh("marks of withdrawn calls", SOURCE, record.clone(), actions.collect())
  };
  [1, 2, MOST_CALLS as u32 - 1, MOST_CALLS as u32].map(of).to_vec()
}

/// Answers turn from accepted to refused and back, and marks stay with their calls.
fn turned() -> Vec<Sitting> {
  let filed = [
    update(1, 4, b"X"),
    insert(2, b"!"),
    update(1, 4, b""),
    insert(2, b"?"),
    remove(5, 2),
    relocate(0, 1, 4),
  ];
  let mut all = Vec::new();
  for k in 1..=filed.len() as u32 {
    let mut actions: Vec<Action> = filed.iter().map(Action::file).collect();
    let set = |k: usize| Action::SetMarks { k: k as u32, marks: 10 * k as u32 };
    actions.extend((1..=filed.len()).map(set));
    actions.extend([action(insert(0, b"lost")), Action::Withdraw(k), Action::Total]);
    actions.extend((1..filed.len()).flat_map(show));
    let record = Written::calls(&[]);
    all.push(Sitting::fresh("answers that turn beside marks", SOURCE, record, actions));
  }
  all
}

/// What is refused leaves all marks: filings that break a rule or have no room, withdrawals of
/// calls that are not there, and freezings.
fn refused() -> Vec<Sitting> {
  let mut all = Vec::new();
  for count in [3, MOST_CALLS] {
    let filed = vec![insert(1, b"x"); count];
    let record = Written { marks: marks(count), ..Written::calls(&filed) };
    let mut actions = vec![Action::File(vec![0, 1]), Action::file(&insert(0, &[b'y'; 40_000]))];
    actions.extend([0, count as u32 + 1, u32::MAX].map(Action::Withdraw));
    actions.extend([Action::Freeze { start: 0, end: 1 }, Action::Total]);
    all.push(Sitting::fresh("refusals beside marks", SOURCE, record, actions));
  }
  all
}
