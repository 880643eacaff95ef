//! Document 02's L7 read plainly: two lists are joined if their calls together pass the
//! checks of docs/ANY-ORDER.md, and then those of the first are made, and those of the
//! second. It is written to be read beside the request, not to be fast.

use oracle::{Answer, Call, Desk, apply, number};

use crate::{
  any_order::Premises,
  sheets::reading::{MOST_RECORDS, MOST_SHEET, records},
};

/// The calls of a list: L1's records alone, with L1's record count and size. None where it
/// breaks a rule.
pub fn read(list: &[u8]) -> Option<Vec<Call>> {
  let calls: Vec<Call> = records(list)?.into_iter().map(|(_, call)| call).collect();
  (calls.len() <= MOST_RECORDS && list.len() <= MOST_SHEET).then_some(calls)
}

/// Joins the lists on the desk, which is none where it is not well formed.
pub fn join(desk: Option<&mut Desk>, lists: [&[u8]; 2]) -> Answer {
  let Some(desk) = desk else {
    return Answer::number(number::NOT_WELL_FORMED);
  };
  let [Some(first), Some(second)] = lists.map(read) else {
    return Answer::number(number::BAD_SHEET);
  };
  let calls = [first, second].concat();
  let premises = Premises::of(desk.clone());
  if !premises.not_apart(&calls).is_empty() {
    return Answer::number(number::NOT_APART);
  }
  if !calls.iter().all(|call| premises.accepts(call)) {
    return Answer::number(number::REFUSED_ALONE);
  }
  if !premises.left(&calls).is_enough() {
    return Answer::number(number::LIMIT);
  }
  let chunks = desk.counts().chunks;
  for call in &calls {
    assert_eq!(apply(desk, call).number, number::ACCEPTED, "by the any-order rule: {call}");
  }
  Answer::edit(number::ACCEPTED, desk.counts().chunks - chunks)
}

/// Whether the join changes no byte of the desk's memory.
pub fn keeps_every_byte(answer: &Answer, lists: [&[u8]; 2]) -> bool {
  answer.number != number::ACCEPTED || lists.iter().all(|list| list.is_empty())
}
