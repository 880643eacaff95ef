//! What filing and withdrawing make of marks.

use oracle::number::*;

use super::{Seen, entries, places};
use crate::sittings::Action;

pub fn add(seen: &Seen, add: &mut impl FnMut(String, bool)) {
  filing(seen, add);
  withdrawal(seen, add);
}

fn filing(seen: &Seen, add: &mut impl FnMut(String, bool)) {
  let is_filing = matches!(seen.action, Action::File(_));
  let (old, new) = (entries(&seen.record), entries(&seen.left_record));
  let is_filed = new.len() > old.len();
  let is_marked = old.iter().any(|entry| entry.marks > 0);
  let (_, memory) = seen.sides.memory();
  let place = memory.marks().get(old.len()).copied();
  let mut met = |name: &str, is_met: bool| add(format!("file: {name}"), is_filing && is_met);
  met("beside marks", is_filed && is_marked);
  met("where marks stood", is_filed && place.is_some_and(|byte| (1..=100).contains(&byte)));
  met("where high marks stood", is_filed && place.is_some_and(|byte| byte > 100));
  met("the first, where marks stood", is_filed && old.is_empty() && place > Some(0));
  met("the last of 200", is_filed && is_marked && new.len() == 200);
  met("a refused call beside marks", is_filed && is_marked && seen.answer.number != ACCEPTED);
  for number in [LIMIT, BAD_SHEET] {
    let is_refused = seen.answer.number == number && !is_filed && is_marked;
    met(&format!("{number} beside marks"), is_refused);
  }
}

fn withdrawal(seen: &Seen, add: &mut impl FnMut(String, bool)) {
  let k = match *seen.action {
    Action::Withdraw(k) => Some(k),
    _ => None,
  };
  let mut met = |name: &str, is_met: bool| add(format!("withdraw: {name}"), k.is_some() && is_met);
  let (old, new) = (entries(&seen.record), entries(&seen.left_record));
  let is_done = k.is_some() && seen.answer.number == ACCEPTED;
  let k = k.unwrap_or_default();
  let at = (k as usize).saturating_sub(1);
  let is_marked = old.get(at).is_some_and(|entry| entry.marks > 0);
  for (name, is_there) in places(k, old.len()) {
    met(&format!("{name}, with marks"), is_done && is_there && is_marked);
  }
  // Marks at their old numbers would be others.
  let moves = old.iter().zip(new).any(|(old, new)| old.marks != new.marks);
  met("marks move", is_done && moves);
  met("marks before it stay", is_done && old[..at].iter().any(|entry| entry.marks > 0));
  let mut left = old.to_vec();
  if is_done {
    left.remove(at);
  }
  let turned = |to_accepted: bool| {
    let mut each = left.iter().zip(new).filter(|(old, _)| old.marks > 0);
    each
      .any(|(old, new)| (old.answer == 0) != (new.answer == 0) && (new.answer == 0) == to_accepted)
  };
  met("an answer turns to refused, with marks", is_done && turned(false));
  met("an answer turns to accepted, with marks", is_done && turned(true));
  met("17 beside marks", seen.answer.number == NO_SUCH_CALL && !old.is_empty());
}
