//! Check 8: each call by itself on a copy of the desk.

use magic_string_sys::Answer;
use sheet_script::{Kind, Record};

use super::{Broken, Listed};
use crate::{MagicString, memory::Memory};

/// The refusal of a call that is made alone.
pub fn refused<'a>(desk: &MagicString, call: &Listed<'a>) -> Option<Broken<'a>> {
  let made = desk.clone().edit(|memory| make(memory, &call.record)).err();
  made.map(|refusal| Broken::RefusedAlone { call: call.clone(), refusal })
}

/// Makes the call of a record. Its text may not be UTF-8.
fn make(memory: &mut Memory, record: &Record) -> Answer {
  let Record { kind, ref positions, text } = *record;
  match (kind, &positions[..]) {
    (Kind::Remove, &[start, end]) => memory.remove(start, end),
    (Kind::Update, &[start, end]) => memory.update_with(start, end, text, true),
    (Kind::Reset, &[start, end]) => memory.reset(start, end),
    (Kind::AppendLeft, &[at]) => memory.insert(at, text, true, false),
    (Kind::AppendRight, &[at]) => memory.insert(at, text, false, false),
    (Kind::PrependLeft, &[at]) => memory.insert(at, text, true, true),
    (Kind::PrependRight, &[at]) => memory.insert(at, text, false, true),
    (Kind::Relocate, &[start, end, to]) => memory.relocate(start, end, to),
    _ => unreachable!("a record has the positions of its kind"),
  }
}
