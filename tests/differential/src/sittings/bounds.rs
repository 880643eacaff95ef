//! Records with as many calls and as many bytes of text as there may be, one less and one
//! more; the longest calls; and the numbers that a withdrawal may name.

use oracle::{
  APPEND_LEFT,
  Call::{self, *},
  insertions,
};

use super::{
  Action, Sitting, Written,
  reading::{MOST_CALLS, MOST_TEXT},
};
use crate::sheets::fields::Record;

pub fn all() -> Vec<Sitting> {
  [counts(), texts(), whole(), longest(), numbers()].concat()
}

const SOURCE: &str = "abcdef";

/// A call of each kind that a fresh desk accepts, with these bytes where it has a text.
fn kinds(text: &[u8]) -> Vec<Call> {
  let mut calls = vec![
    Remove { start: 1, end: 2 },
    UpdateWith { start: 0, end: 3, overwrite: 1, text: text.to_vec() },
    Reset { start: 0, end: 3 },
    Relocate { start: 0, end: 1, to: 3 },
  ];
  calls.extend(insertions(1, text));
  calls
}

fn insert(at: u32, text: &[u8]) -> Call {
  Insert { at, text: text.to_vec(), setting: APPEND_LEFT }
}

/// So many insertions, each with a text of its own.
fn insertions_apart(count: usize) -> Vec<Call> {
  (0..count).map(|place| insert(place as u32 % 8, place.to_string().as_bytes())).collect()
}

/// So many calls of each kind are filed, and more are.
fn counts() -> Vec<Sitting> {
  let mut all = Vec::new();
  for count in MOST_CALLS - 2..=MOST_CALLS + 1 {
    // The last is refused by the desk, too: the record's number comes first.
    for call in kinds(b"x").into_iter().chain([Remove { start: 2, end: 1 }]) {
      let filed = Written::calls(&vec![call.clone(); count]);
      let [file, last] = [Action::file(&call), Action::Withdraw(MOST_CALLS as u32)];
      let actions = vec![file.clone(), file.clone(), last, file.clone(), file];
      all.push(Sitting::fresh("many calls", SOURCE, filed, actions));
    }
  }
  all
}

/// Texts of so many bytes together, in one call and in several.
fn texts() -> Vec<Sitting> {
  let mut all = Vec::new();
  for sum in MOST_TEXT - 1..=MOST_TEXT + 1 {
    for last in [0, 1, 5, sum / 2, sum - 1, sum] {
      for byte in [b'x', 0xff] {
        all.extend([1, 2, MOST_CALLS - 1].map(|count| text_sum(sum - last, count, last, byte)));
      }
    }
  }
  all
}

/// So many bytes of text in so many filed calls, and then a call of each kind with a text
/// of these bytes, and calls without text.
fn text_sum(sum: usize, count: usize, last: usize, byte: u8) -> Sitting {
  let share = |place: usize| (place + 1) * sum / count - place * sum / count;
  let filed: Vec<Call> = (0..count).map(|place| insert(0, &vec![byte; share(place)])).collect();
  let mut actions = Vec::new();
  for call in kinds(&vec![byte; last]) {
    actions.extend([Action::file(&call), Action::Withdraw(count as u32 + 1)]);
  }
  Sitting::fresh("many bytes of text", SOURCE, Written::calls(&filed), actions)
}

/// Everything is filed by the core: more calls than there may be, and the most bytes.
fn whole() -> Vec<Sitting> {
  let mut calls: Vec<Action> = insertions_apart(MOST_CALLS + 1).iter().map(Action::file).collect();
  for k in [1, 100, 199, 198, 1] {
    calls.extend([Action::Withdraw(k), Action::file(&insert(2, b"more"))]);
  }

  let moves = vec![Action::file(&Relocate { start: 0, end: 1, to: 3 }); MOST_CALLS - 1];
  let update = |len| UpdateWith { start: 0, end: 3, overwrite: 1, text: vec![b'x'; len] };
  let updates = [MOST_TEXT + 1, MOST_TEXT, 0].map(|len| Action::file(&update(len)));
  let withdrawals = [1, 199, 198].map(Action::Withdraw);
  let bytes = moves.into_iter().chain(updates).chain(withdrawals).collect();

  let sitting = |actions| Sitting::fresh("a whole record", SOURCE, Written::calls(&[]), actions);
  vec![sitting(calls), sitting(bytes)]
}

/// Calls of the greatest length, of a sheet's and beside it: with a text they break the
/// bound of texts, and without one the rules of their kind.
fn longest() -> Vec<Sitting> {
  let mut actions = Vec::new();
  for len in [57_344, 57_345, usize::from(u16::MAX) - 1, u16::MAX.into()] {
    for kind in 0..=9 {
      let mut body = vec![b'x'; len];
      body[..13].fill(0);
      body[0] = kind;
      let call = Record::new(body).bytes();
      // A byte more than the length says.
      let longer = [&call[..], &[0]].concat();
      actions.extend([Action::File(call), Action::File(longer)]);
    }
  }
  let filed = Written::calls(&[insert(0, b"x")]);
  vec![Sitting::fresh("long calls", SOURCE, filed, actions)]
}

/// Each number beside a count, and numbers that have one of these in their low 8, 16 or 31
/// bits.
fn numbers() -> Vec<Sitting> {
  let mut all = Vec::new();
  for count in [0, 1, 2, 3, 9, MOST_CALLS - 1, MOST_CALLS] {
    let filed = Written::calls(&insertions_apart(count));
    let near = [0, 1, 2, count / 2, count.saturating_sub(1), count, count + 1, MOST_CALLS + 1];
    let near = near.map(|k| k as u32);
    let far = near.into_iter().flat_map(|k| [k | 0x100, k | 0x1_0000, k | 0x8000_0000]);
    for k in near.into_iter().chain(far).chain([u32::MAX, u32::MAX - 1]) {
      // The call that is filed behind it is the last, whatever was taken out.
      let actions = vec![Action::Withdraw(k), Action::file(&insert(1, b"last"))];
      all.push(Sitting::fresh("the number of a call", SOURCE, filed.clone(), actions));
    }
  }
  all
}
