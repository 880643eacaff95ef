//! Every choice of what a filing and a withdrawal can be refused for, all due at once.

use std::array;

use oracle::{APPEND_LEFT, Call};

use super::{Action, HARMS, Sitting, Written, memory::call_bytes, reading::MOST_CALLS};

/// What a filing is refused for, in the order in which the numbers come: a desk and a
/// record that are none, a call that breaks a rule, a record without room; and what the
/// call itself is refused for.
pub const FILING: [u32; 5] = [2, 2, 16, 13, 1];

/// The same of a withdrawal: the desk, the record, the number.
pub const WITHDRAWAL: [u32; 3] = [2, 2, 17];

pub fn all() -> Vec<Sitting> {
  [filings(), withdrawals()].concat()
}

/// The bits of a choice are the places of `FILING`.
pub fn filings() -> Vec<Sitting> {
  (0..1 << FILING.len()).map(filing).collect()
}

/// The bits of a choice are the places of `WITHDRAWAL`.
pub fn withdrawals() -> Vec<Sitting> {
  (0..1 << WITHDRAWAL.len()).map(withdrawal).collect()
}

fn insertion(text: &[u8]) -> Call {
  Call::Insert { at: 3, text: text.to_vec(), setting: APPEND_LEFT }
}

fn due(no_desk: bool, no_record: bool, count: usize, action: Action) -> Sitting {
  let mut record = Written::calls(&vec![insertion(b"x"); count]);
  record.used -= no_record as u32;
  let sitting = Sitting::fresh("refusals at once", "abcdef", record, vec![action]);
  Sitting { harm: no_desk.then_some(HARMS[0]), ..sitting }
}

fn filing(choice: usize) -> Sitting {
  let [no_desk, no_record, bad_call, no_room, refused] =
    array::from_fn(|bit| choice >> bit & 1 == 1);
  let mut call = call_bytes(&insertion(if refused { b"\xff" } else { b"y" }));
  if bad_call {
    call.truncate(5);
  }
  due(no_desk, no_record, if no_room { MOST_CALLS } else { 3 }, Action::File(call))
}

fn withdrawal(choice: usize) -> Sitting {
  let [no_desk, no_record, no_call] = array::from_fn(|bit| choice >> bit & 1 == 1);
  due(no_desk, no_record, 3, Action::Withdraw(if no_call { 0 } else { 3 }))
}
