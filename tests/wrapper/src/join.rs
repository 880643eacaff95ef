//! Two lists joined on both sides. The Rust has no such call: it makes the calls one by one.

use magic_string::{Call as Listed, MagicString};
use oracle::{
  Answer, Call, Desk, DeskData, apply,
  number::{ACCEPTED, NOT_APART, REFUSED_ALONE},
};

use crate::{data, sitting::to_wrapper};

/// Joins two lists of calls, and gives the number. Where they are joined, the Rust's desk
/// gets their calls one by one, the first list before the second on one copy and behind it
/// on another: each is accepted, and both copies are what the wrapper has, with as many
/// cuts. Else the wrapper's desk is as it was, and 19 is given only if some call is refused
/// on a copy, where 13 and 0 are given only if none is.
pub fn join(desk: &mut MagicString, rust: &mut Desk, lists: [&[Call]; 2]) -> u32 {
  let before = desk.clone();
  let [first, second] = lists.map(list);
  let number = desk.join(&first, &second).err().map_or(ACCEPTED, |refusal| refusal.number());
  let accepted = |call| apply(&mut rust.clone(), call).number == ACCEPTED;
  let all_alone = lists.concat().iter().all(accepted);
  match number {
    NOT_APART => {}
    REFUSED_ALONE => assert!(!all_alone),
    _ => assert!(all_alone, "{number}"),
  }
  if number == ACCEPTED {
    let other = made(&mut rust.clone(), [lists[1], lists[0]]);
    assert_eq!(other, (desk.cuts(), data(desk)));
    assert_eq!(made(rust, lists), other);
  } else {
    assert_eq!((desk.cuts(), desk.tables()), (0, before.tables()));
  }
  number
}

/// The bytes of a list.
fn list(calls: &[Call]) -> Vec<u8> {
  let calls: Vec<Listed> = calls.iter().map(to_wrapper).collect();
  Listed::list(&calls).expect("texts are short")
}

/// Makes the calls of both lists, which are accepted: their cuts, and the desk.
fn made(desk: &mut Desk, lists: [&[Call]; 2]) -> (usize, DeskData) {
  let mut cuts = 0;
  for call in lists.concat() {
    let Answer { number, value, .. } = apply(desk, &call);
    assert_eq!(number, ACCEPTED, "{call}");
    cuts += value as usize;
  }
  (cuts, desk.data())
}
