//! Joins that are held to what they should leave, and to what `premises::broken` says.

use magic_string::{
  MagicString, Refusal,
  premises::{Broken, broken},
};

use crate::one_by_one::call;

/// Joins the lists on a copy of the desk, and gives that copy or the refusal. A refusal is
/// that of the first thing that is broken, and changes nothing. Nothing is broken if they
/// are joined: then each call is accepted, one by one, in both orders of the lists, and the
/// desk and the cuts are the same.
pub fn joined(desk: &MagicString, first: &[u8], second: &[u8]) -> Result<MagicString, Refusal> {
  let broken = broken(desk, first, second);
  let mut joined = desk.clone();
  let refusal = joined.join(first, second).err();
  assert_eq!(refusal, broken.first().map(Broken::refusal), "{broken:?}");
  if let Some(refusal) = refusal {
    assert_eq!((joined.cuts(), joined.tables()), (0, desk.tables()));
    return Err(refusal);
  }
  let cuts = made(desk, &[first, second], &joined);
  assert_eq!((cuts, made(desk, &[second, first], &joined)), (joined.cuts(), joined.cuts()));
  assert_eq!(joined.chunks().count(), desk.chunks().count() + cuts);
  Ok(joined)
}

/// Makes all calls of the lists one by one, which must leave this desk, and gives their
/// cuts together.
fn made(desk: &MagicString, lists: &[&[u8]], joined: &MagicString) -> usize {
  let mut desk = desk.clone();
  let mut cuts = 0;
  for record in lists.iter().flat_map(|list| sheet_script::list(list).unwrap()) {
    let made = call(&mut desk, record.kind.byte(), &record.positions, record.text);
    assert_eq!(made, Ok(()), "{record}");
    cuts += desk.cuts();
  }
  assert_eq!(desk, *joined);
  cuts
}
