use std::fmt;

use sheet_script::Kind;

use super::Listed;

/// A place that a call may reach.
#[derive(Debug, Clone, Copy, PartialEq, Eq)]
pub enum Spot {
  /// A byte of the source, counted from 0.
  Byte(u32),
  /// The texts before all chunks.
  Head,
  /// The texts behind all chunks.
  Tail,
}

impl fmt::Display for Spot {
  fn fmt(&self, out: &mut fmt::Formatter) -> fmt::Result {
    match self {
      Spot::Byte(at) => write!(out, "the same byte, {at}"),
      Spot::Head => out.pad("the head"),
      Spot::Tail => out.pad("the tail"),
    }
  }
}

/// All that a call reaches.
#[derive(Clone, Copy)]
pub(super) enum Reach {
  /// The bytes from the first up to but without the second.
  Bytes(u32, u32),
  Head,
  Tail,
  Nothing,
}

impl Reach {
  /// What the call reaches over a source of this length: a removal, replacement or reset its
  /// bytes; an insertion the byte beside its position, or the head or tail; a move nothing.
  pub fn of(call: &Listed, source: u32) -> Self {
    match (call.record.kind, &call.record.positions[..]) {
      (Kind::AppendLeft | Kind::PrependLeft, &[at]) => match at.checked_sub(1) {
        Some(before) => Reach::Bytes(before, at),
        None => Reach::Head,
      },
      (Kind::AppendRight | Kind::PrependRight, &[at]) if at < source => Reach::Bytes(at, at + 1),
      (Kind::AppendRight | Kind::PrependRight, _) => Reach::Tail,
      _ => call.range().map_or(Reach::Nothing, |(start, end)| Reach::Bytes(start, end)),
    }
  }

  /// What both reach; of several bytes the first.
  pub fn shared(self, other: Reach) -> Option<Spot> {
    match (self, other) {
      (Reach::Bytes(start, end), Reach::Bytes(from, to)) => {
        let first = start.max(from);
        (first < end.min(to)).then_some(Spot::Byte(first))
      }
      (Reach::Head, Reach::Head) => Some(Spot::Head),
      (Reach::Tail, Reach::Tail) => Some(Spot::Tail),
      _ => None,
    }
  }
}
