//! Which answers leave every byte of the lent tables, as include/magic_string.h
//! says.

use crate::{Call, number::*};

/// Reports, accepted edits that do nothing, and every refusal but those after
/// which something stays.
pub fn every_byte(call: &Call, number: u32) -> bool {
  match number {
    ACCEPTED => !call.is_edit() || does_nothing(call),
    _ => !stays_after(call).contains(&number),
  }
}

/// The refusals after which cuts stay, or emptied chunks: the header's "After". An
/// insertion's 6 is none of them, as its one cut is the one that is refused.
fn stays_after(call: &Call) -> &'static [u32] {
  match call {
    Call::Remove { .. } | Call::Reset { .. } => &[CUT_IN_REPLACEMENT, FROZEN],
    Call::UpdateWith { .. } => &[CUT_IN_REPLACEMENT, PAST_SOURCE, FROZEN, ACROSS_MOVED_EDGE],
    Call::Freeze { .. } => &[CUT_IN_REPLACEMENT],
    Call::Relocate { .. } => &[CUT_IN_REPLACEMENT, NOT_TOGETHER],
    _ => &[],
  }
}

/// Edits that are accepted and do nothing on any desk: zero width, and an indent
/// by the empty text.
fn does_nothing(call: &Call) -> bool {
  match call {
    Call::Remove { start, end } | Call::Reset { start, end } => start == end,
    Call::Relocate { start, end, .. } | Call::Freeze { start, end } => start == end,
    Call::IndentWith { indentor, .. } => indentor.as_ref().is_some_and(Vec::is_empty),
    _ => false,
  }
}
