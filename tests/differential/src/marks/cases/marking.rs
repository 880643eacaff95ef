//! Marks that are written, and that are not.

use oracle::number::*;

use super::{Seen, entries, no_places, places};
use crate::{marks::marked::MARKS, sittings::Action};

pub fn add(seen: &Seen, add: &mut impl FnMut(String, bool)) {
  let (k, marks) = match *seen.action {
    Action::SetMarks { k, marks } => (Some(k), marks),
    _ => (None, 0),
  };
  let (entries, number) = (entries(&seen.record), seen.answer.number);
  let mut met = |name: &str, is_met: bool| add(format!("set_marks: {name}"), k.is_some() && is_met);
  for other in MARKS {
    let due = if other > 100 { MARKS_TOO_HIGH } else { ACCEPTED };
    met(&format!("{due} for {other}"), marks == other && number == due);
  }
  let k = k.unwrap_or_default();
  for (name, is_there) in places(k, entries.len()) {
    met(name, is_there && number == ACCEPTED);
  }
  for (name, is_there) in no_places(k, entries.len()) {
    met(&format!("17 for {name}"), is_there && number == NO_SUCH_CALL);
  }
  let old = entries.get((k as usize).wrapping_sub(1)).map(|entry| u32::from(entry.marks));
  let is_done = number == ACCEPTED;
  met("over lower marks", is_done && old.is_some_and(|old| old < marks));
  met("over higher marks", is_done && old.is_some_and(|old| old > marks));
  met("over the same marks", is_done && old == Some(marks) && marks > 0);
  met("17 before 21", number == NO_SUCH_CALL && marks > 100);
  let is_none = number == NOT_WELL_FORMED;
  let no_call = k == 0 || k > 200;
  met("2 before 17", is_none && no_call && marks <= 100);
  met("2 before 21", is_none && !no_call && marks > 100);
  met("2 before 17 and 21", is_none && no_call && marks > 100);
  met("without a desk", is_done && seen.desk().is_none());
}
