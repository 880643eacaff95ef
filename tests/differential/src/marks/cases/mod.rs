//! The cases that must be met.

mod filed;
mod marking;
mod members;
mod readings;
mod records;

use crate::sittings::{
  Action, Case, Cases, Seen,
  reading::{Entry, Reader, Record},
};

/// Those of marks.
#[derive(Debug, Clone, Default)]
pub struct OfMarks;

impl Cases for OfMarks {
  fn of(seen: &Seen) -> Vec<Case> {
    let mut cases = Vec::new();
    let mut add = |name: String, is_met: bool| cases.push((name, is_met));
    marking::add(seen, &mut add);
    readings::add(seen, &mut add);
    readings::totals(seen, &mut add);
    records::add(seen, &mut add);
    filed::add(seen, &mut add);
    members::add(seen, &mut add);
    cases
  }
}

/// The entries of a record; of none there are none.
fn entries(record: &Option<Record>) -> &[Entry] {
  record.as_ref().map_or(&[], |record| &record.entries)
}

/// The places of numbers that name an entry of so many, by their names.
fn places(k: u32, count: usize) -> [(&'static str, bool); 5] {
  let k = k as usize;
  let is_one = (1..=count).contains(&k);
  [
    ("the only entry", is_one && count == 1),
    ("the first of some", k == 1 && count > 1),
    ("the last of some", is_one && k == count && count > 1),
    ("one between", is_one && 1 < k && k < count),
    ("the last of 200", is_one && k == count && count == 200),
  ]
}

/// Numbers that name none of so many.
fn no_places(k: u32, count: usize) -> [(&'static str, bool); 5] {
  let [low, far] = [k & 0xff, k & 0xffff].map(|k| (1..=count).contains(&(k as usize)));
  let is_none = k == 0 || k as usize > count;
  [
    ("0", k == 0 && count > 0),
    ("one above the count", is_none && k as usize == count + 1 && count > 0),
    ("the greatest number", k == u32::MAX),
    ("a number with another in its low bits", is_none && low && far),
    ("1 of a record without calls", k == 1 && count == 0),
  ]
}

/// The name of the exported function that takes the record, if one does.
fn function(action: &Action) -> Option<&'static str> {
  Some(match action {
    Action::File(_) => "file",
    Action::Withdraw(_) => "withdraw",
    Action::Freeze { .. } => "freeze",
    Action::SetMarks { .. } => "set_marks",
    Action::Show { reader, .. } => reader.function(),
    Action::Total => "total",
    _ => return None,
  })
}

/// Those, and which of them lend a desk too.
const FUNCTIONS: [(&str, bool); 7] = [
  ("file", true),
  ("withdraw", true),
  ("freeze", true),
  ("set_marks", false),
  ("entry", false),
  ("marked_entry", false),
  ("total", false),
];

const READERS: [Reader; 2] = [Reader::Member, Reader::Examiner];
