//! Freezings with no call filed.

use oracle::{Desk, number::*};

use super::Seen;
use crate::sittings::Action;

pub fn add(seen: &Seen, add: &mut impl FnMut(String, bool)) {
  let range = match (seen.action, seen.desk()) {
    (&Action::Freeze { start, end }, Some(desk)) if seen.has_filed(0) => Some((desk, start, end)),
    _ => None,
  };
  let number = seen.answer.number;
  for refused in [INSIDE_CHARACTER, END_BEFORE_START, PAST_SOURCE, CUT_IN_REPLACEMENT, LIMIT] {
    add(format!("freeze: {refused}"), range.is_some() && number == refused);
  }
  let stays = number == CUT_IN_REPLACEMENT && seen.answer.value == 1;
  add("freeze: 6 with 1 cut".to_string(), range.is_some() && stays);
  let mut accepted = |name: &str, is_met: &dyn Fn(&Desk, u32, u32) -> bool| {
    let is_accepted = number == ACCEPTED;
    let is_met = |(desk, start, end)| is_accepted && is_met(desk, start, end);
    add(format!("freeze: {name}"), range.is_some_and(is_met));
  };
  for cuts in 0..3 {
    accepted(&format!("{cuts} cuts"), &|_, start, end| start < end && seen.answer.value == cuts);
  }
  accepted("zero width", &|_, start, end| start == end);
  let frozen = |desk: &Desk, start: u32, end: u32| {
    (start..end).filter(|&at| desk.marks().at(at)).count() as u32
  };
  accepted("a frozen range", &|desk, start, end| {
    start < end && frozen(desk, start, end) == end - start
  });
  accepted("a range that is frozen in part", &|desk, start, end| {
    start < end && (1..end - start).contains(&frozen(desk, start, end))
  });
  accepted("behind the last withdrawal", &|_, start, end| start < end && seen.history.is_emptied);
}
