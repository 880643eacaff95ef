//! The call of a record, made by the wrapper's own method.

use magic_string::{End::*, MagicString, Refusal, Side::*, UpdateOptions};

pub fn call(
  desk: &mut MagicString,
  kind: u8,
  positions: &[u32],
  text: &[u8],
) -> Result<(), Refusal> {
  let text = || str::from_utf8(text).map_err(|_| Refusal::NotUtf8);
  let done = match (kind, positions) {
    (1, &[start, end]) => desk.remove(start, end),
    (2, &[start, end]) => desk.update_with(start, end, text()?, UpdateOptions { overwrite: true }),
    (3, &[start, end]) => desk.reset(start, end),
    (4, &[at]) => desk.insert(at, text()?, Left, Back),
    (5, &[at]) => desk.insert(at, text()?, Right, Back),
    (6, &[at]) => desk.insert(at, text()?, Left, Front),
    (7, &[at]) => desk.insert(at, text()?, Right, Front),
    (8, &[start, end, to]) => desk.relocate(start, end, to),
    _ => unreachable!("a record of kind {kind}"),
  };
  done.map(drop)
}
