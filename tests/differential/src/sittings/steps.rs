//! What chosen sittings are made of: calls, desks by the calls that lead to them, and
//! actions.

use oracle::{
  APPEND_LEFT,
  Call::{self, *},
  Desk, DeskData, Limits, apply,
};

use super::{Action, Sitting, Written};
use crate::Made;

pub fn freeze(start: u32, end: u32) -> Call {
  Freeze { start, end }
}

pub fn remove(start: u32, end: u32) -> Call {
  Remove { start, end }
}

pub fn relocate(start: u32, end: u32, to: u32) -> Call {
  Relocate { start, end, to }
}

pub fn update(start: u32, end: u32, text: &[u8]) -> Call {
  UpdateWith { start, end, overwrite: 1, text: text.to_vec() }
}

pub fn insert(at: u32, text: &[u8]) -> Call {
  Insert { at, text: text.to_vec(), setting: APPEND_LEFT }
}

/// The desk that these calls leave of a fresh one.
pub fn desk(source: &str, calls: &[Call]) -> DeskData {
  let mut desk = Desk::open(Limits::FULL, source.as_bytes()).expect("a source within the limits");
  for call in calls {
    assert_eq!(apply(&mut desk, call).number, 0, "{call}");
  }
  desk.data()
}

/// The call that is not filed; a freezing is made beside the record.
pub fn action(call: Call) -> Action {
  match call {
    Freeze { start, end } => Action::Freeze { start, end },
    _ => Action::Make(Made { call, seed: 0 }),
  }
}

/// On the desk that these calls leave, in memory made by hand, and where the core makes them
/// itself; beside an empty record.
pub fn both_ways(
  tries: &'static str,
  source: &str,
  calls: &[Call],
  actions: Vec<Action>,
) -> [Sitting; 2] {
  let before = calls.iter().cloned().map(action);
  let all = before.chain(actions.clone()).collect();
  let record = || Written::calls(&[]);
  [
    Sitting::on(tries, desk(source, calls), record(), actions),
    Sitting::fresh(tries, source, record(), all),
  ]
}
