//! A member's calls beside a second record with other marks.

use oracle::{Call, number::ACCEPTED};

use super::{Seen, entries};
use crate::sittings::{
  Action,
  reading::{Reader, Record},
};

/// What a member may call, and whether it can be accepted and refused there: with calls filed
/// a freezing is refused, and the desks are well formed.
const CALLS: [(&str, &[bool]); 11] = [
  ("file", &[true, false]),
  ("withdraw", &[true, false]),
  ("freeze", &[false]),
  ("an edit", &[true, false]),
  ("a report", &[true, false]),
  ("join", &[true, false]),
  ("entry", &[true, false]),
  ("open, the same source", &[true]),
  ("open, another source", &[true, false]),
  ("run_sheet", &[true, false]),
  ("well_formed", &[true]),
];

/// None for the examiner's.
fn called(seen: &Seen) -> Option<&'static str> {
  let (image, _) = seen.sides.memory();
  Some(match seen.action {
    Action::File(_) => "file",
    Action::Withdraw(_) => "withdraw",
    Action::Freeze { .. } => "freeze",
    Action::Join(_) => "join",
    Action::RunSheet { .. } => "run_sheet",
    Action::WellFormed => "well_formed",
    Action::Show { reader: Reader::Member, .. } => "entry",
    Action::Make(made) => match &made.call {
      Call::Open { source } if *source == image.source => "open, the same source",
      Call::Open { .. } => "open, another source",
      call if call.is_edit() => "an edit",
      _ => "a report",
    },
    _ => return None,
  })
}

pub fn add(seen: &Seen, add: &mut impl FnMut(String, bool)) {
  let second = seen.second.and_then(|second| second.record());
  let marks = |record: &Option<Record>| -> Vec<u8> {
    entries(record).iter().map(|entry| entry.marks).collect()
  };
  let is_other = second.is_some() && marks(&seen.record) != marks(&second);
  let (called, is_accepted) = (called(seen), seen.answer.number == ACCEPTED);
  for (name, outcomes) in CALLS {
    for &outcome in outcomes {
      let is_met = called == Some(name) && is_accepted == outcome;
      let outcome = if outcome { "accepted" } else { "refused" };
      add(format!("other marks, {name}: {outcome}"), is_other && is_met);
    }
  }
  let is_behind = seen.history.is_marked && called.is_some();
  add("other marks, right behind set_marks".to_string(), is_other && is_behind);
  let is_frozen = called == Some("freeze") && is_accepted;
  let is_empty = second.is_some() && seen.has_filed(0);
  add("a second record without calls, freeze: accepted".to_string(), is_empty && is_frozen);
}
