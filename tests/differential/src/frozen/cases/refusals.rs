//! 20 beside every other number.

use oracle::{Call, number::*};

use super::{Seen, has_marks, is_filing};

/// The number that comes, and one that was due too: 20 beside every number that can be.
const COMES_BEFORE: [(&str, u32, u32); 33] = [
  ("remove", INSIDE_CHARACTER, FROZEN),
  ("remove", END_BEFORE_START, FROZEN),
  ("remove", CUT_IN_REPLACEMENT, FROZEN),
  ("remove", LIMIT, FROZEN),
  ("update_with", NOT_UTF8, FROZEN),
  ("update_with", INSIDE_CHARACTER, FROZEN),
  ("update_with", END_BEFORE_START, FROZEN),
  ("update_with", CUT_IN_REPLACEMENT, FROZEN),
  ("update_with", PAST_SOURCE, FROZEN),
  ("update_with", LIMIT, FROZEN),
  ("update_with", FROZEN, ACROSS_MOVED_EDGE),
  ("update_with", FROZEN, LIMIT),
  ("reset", INSIDE_CHARACTER, FROZEN),
  ("reset", END_BEFORE_START, FROZEN),
  ("reset", PAST_SOURCE, FROZEN),
  ("reset", CUT_IN_REPLACEMENT, FROZEN),
  ("reset", LIMIT, FROZEN),
  ("trim", BAD_OPTION, FROZEN),
  ("trim", FROZEN, LIMIT),
  ("trim_start", BAD_OPTION, FROZEN),
  ("trim_start", FROZEN, LIMIT),
  ("trim_end", BAD_OPTION, FROZEN),
  ("trim_end", FROZEN, LIMIT),
  ("trim_lines", FROZEN, LIMIT),
  ("indent_with", BAD_OPTION, FROZEN),
  ("indent_with", NOT_UTF8, FROZEN),
  ("indent_with", INSIDE_CHARACTER, FROZEN),
  ("indent_with", FROZEN, LIMIT),
  // With calls filed.
  ("freeze", FROZEN, INSIDE_CHARACTER),
  ("freeze", FROZEN, END_BEFORE_START),
  ("freeze", FROZEN, PAST_SOURCE),
  ("freeze", FROZEN, CUT_IN_REPLACEMENT),
  ("freeze", FROZEN, LIMIT),
];

/// What 20 comes before where no number is due: a call that does nothing.
const NOTHING: [&str; 2] = ["indent_with", "freeze"];

pub fn add(seen: &Seen, add: &mut impl FnMut(String, bool)) {
  let (function, due) = (seen.function().unwrap_or_default(), seen.due());
  let number = seen.answer.number;
  let is = |name: &str| function == name;
  for (name, comes, other) in COMES_BEFORE {
    let is_met = is(name) && number == comes && due.contains(&other);
    add(format!("{name}: {comes} before {other}"), is_met);
  }
  for name in NOTHING {
    let is_met = is(name) && number == FROZEN && seen.call.as_ref().is_some_and(does_nothing);
    add(format!("{name}: 20 where nothing would be done"), is_met);
  }
  for name in ["remove", "update_with", "reset"] {
    for cuts in 0..3 {
      let is_met = is(name) && number == FROZEN && seen.answer.value == cuts;
      add(format!("{name}: 20 with {cuts} cuts"), is_met);
    }
    add(format!("{name}: filed with 20"), is(name) && number == FROZEN && is_filing(seen));
    let is_beside = number == ACCEPTED && seen.desk().is_some_and(has_marks);
    add(format!("{name}: accepted on a desk with marks"), is(name) && is_beside);
    let is_idle = [ACCEPTED, ZERO_WIDTH].contains(&number) && is_inside_frozen(seen);
    add(format!("{name}: zero width in a frozen chunk"), is(name) && is_idle);
  }
  for name in ["trim", "trim_start", "trim_end", "trim_lines", "indent_with"] {
    add(format!("{name}: 20"), is(name) && number == FROZEN);
  }
  let is_empty = seen.desk().is_some_and(|desk| desk.magic_string().source().is_empty());
  add("20 of the chunk of an empty source".to_string(), is_empty && number == FROZEN);
}

/// Zero width, and the empty indentor.
fn does_nothing(call: &Call) -> bool {
  match call {
    Call::IndentWith { indentor, .. } => indentor.as_ref().is_some_and(Vec::is_empty),
    _ => matches!(call.positions()[..], [start, end] if start == end),
  }
}

/// Whether the range has no byte and lies inside a frozen chunk.
fn is_inside_frozen(seen: &Seen) -> bool {
  let (Some(desk), Some(call)) = (seen.desk(), &seen.call) else { return false };
  let holds = |at: u32| {
    desk.data().chunks.iter().any(|chunk| chunk.frozen && chunk.start < at && at < chunk.end)
  };
  does_nothing(call) && call.positions().first().is_some_and(|&at| holds(at))
}
