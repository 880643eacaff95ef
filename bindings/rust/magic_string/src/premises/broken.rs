use std::fmt;

use sheet_script::SheetError;

use super::{ListName, Listed, Space, Spot};
use crate::Refusal;

/// One thing that keeps two lists from being joined. Its [`Display`](fmt::Display) says it
/// in words, with the number of the check in docs/ANY-ORDER.md. Check 2 cannot fail: a
/// list has no other calls.
#[derive(Debug, Clone, PartialEq, Eq)]
pub enum Broken<'a> {
  /// The bytes are no list, so that there are no calls to be checked.
  NoList {
    /// Which list.
    list: ListName,
    /// The first place at which it breaks the rules.
    error: SheetError,
  },
  /// Check 1: the source is empty.
  EmptySource,
  /// Check 3: a removal, replacement or reset is not of a byte or more.
  Width(Listed<'a>),
  /// Check 4: a position lies past the source's end.
  PastSource {
    /// The call.
    call: Listed<'a>,
    /// One of its positions.
    position: u32,
    /// The source's length.
    source: u32,
  },
  /// Check 5: two calls reach the same byte, both the head, or both the tail.
  SameReach {
    /// The two calls.
    calls: [Listed<'a>; 2],
    /// What both reach; of several bytes the first.
    spot: Spot,
  },
  /// Check 6: there are two moves.
  TwoMoves([Listed<'a>; 2]),
  /// Check 7: a position of a move lies strictly inside a range that is replaced.
  InsideReplaced {
    /// The move.
    moved: Listed<'a>,
    /// Its position.
    position: u32,
    /// The replacement.
    replacement: Listed<'a>,
  },
  /// Check 8: a call that is made alone on the desk is refused.
  RefusedAlone {
    /// The call.
    call: Listed<'a>,
    /// What it gets.
    refusal: Refusal,
  },
  /// Check 9: there is no space for the calls.
  NoSpace {
    /// Which of the three sums is too large.
    space: Space,
    /// The sum.
    needed: usize,
    /// The limit.
    allowed: usize,
  },
}

impl Broken<'_> {
  /// The number of the check in docs/ANY-ORDER.md; none where a list is no list.
  pub fn check(&self) -> Option<u32> {
    Some(match self {
      Broken::NoList { .. } => return None,
      Broken::EmptySource => 1,
      Broken::Width(_) => 3,
      Broken::PastSource { .. } => 4,
      Broken::SameReach { .. } => 5,
      Broken::TwoMoves(_) => 6,
      Broken::InsideReplaced { .. } => 7,
      Broken::RefusedAlone { .. } => 8,
      Broken::NoSpace { .. } => 9,
    })
  }

  /// What [`MagicString::join`](crate::MagicString::join) gives for it, unless something
  /// that stands before it is broken too.
  pub fn refusal(&self) -> Refusal {
    match self {
      Broken::NoList { .. } => Refusal::BadSheet,
      Broken::RefusedAlone { .. } => Refusal::RefusedAlone,
      Broken::NoSpace { .. } => Refusal::Limit,
      _ => Refusal::NotApart,
    }
  }
}

impl fmt::Display for Broken<'_> {
  fn fmt(&self, out: &mut fmt::Formatter) -> fmt::Result {
    if let Some(check) = self.check() {
      write!(out, "check {check}: ")?;
    }
    match self {
      Broken::NoList { list, error } => write!(out, "{list} breaks the rules: {error}"),
      Broken::EmptySource => write!(out, "the source is empty"),
      Broken::Width(call) => write!(out, "{call} is not of a byte or more"),
      Broken::PastSource { call, position, source } => {
        write!(out, "position {position} of {call} lies past the source's end, {source}")
      }
      Broken::SameReach { calls: [one, other], spot } => {
        let both = if matches!(spot, Spot::Byte(_)) { "reach" } else { "both reach" };
        write!(out, "{one} and {other} {both} {spot}")
      }
      Broken::TwoMoves([one, other]) => write!(out, "{one} and {other} are two moves"),
      Broken::InsideReplaced { moved, position, replacement } => {
        write!(out, "position {position} of {moved} lies strictly inside the range that ")?;
        write!(out, "{replacement} replaces")
      }
      Broken::RefusedAlone { call, refusal } => {
        write!(out, "{call} is refused alone with {}: {refusal}", refusal.number())
      }
      Broken::NoSpace { space, needed, allowed } => {
        write!(out, "{space} are {needed}, more than {allowed}")
      }
    }
  }
}
