//! The nine checks of docs/ANY-ORDER.md on a desk and a list of edits, with its
//! numbers and in its words.

use std::collections::BTreeSet;

use oracle::{Call, Counts, Desk, DeskData, Limits, apply, number};

/// A check by its number in docs/ANY-ORDER.md.
pub type Check = u32;

/// The checks that ask for something of one edit, whatever stands beside it.
pub const EDIT: Check = 2;
pub const WIDTH: Check = 3;
pub const WITHIN_SOURCE: Check = 4;
pub const ALONE: Check = 8;
/// Those of every two edits.
pub const REACHES: Check = 5;
pub const ONE_MOVE: Check = 6;
pub const MOVES_FREE: Check = 7;
/// Those of the desk, and of the desk with the whole list.
pub const SOURCE: Check = 1;
pub const SPACE: Check = 9;

pub const CHECKS: std::ops::RangeInclusive<Check> = SOURCE..=SPACE;

/// Lists that fail one of these alone have no orders that differ.
pub const UNTOLD: [Check; 2] = [SOURCE, WIDTH];

/// The desk that a list of edits is to be run from.
pub struct Premises {
  desk: Desk,
  source: u32,
}

/// How much is left of each limit behind a list, by the reckoning: below 0 where
/// there is no space for it.
#[derive(Debug, Clone, Copy, PartialEq, Eq)]
pub struct Left {
  pub chunks: i64,
  pub pieces: i64,
  pub bytes: i64,
}

impl Left {
  pub fn is_enough(&self) -> bool {
    self.chunks >= 0 && self.pieces >= 0 && self.bytes >= 0
  }
}

impl Premises {
  pub fn on(desk: &DeskData) -> Self {
    Self::of(Desk::build(Limits::FULL, desk))
  }

  pub fn of(desk: Desk) -> Self {
    let source = desk.magic_string().source().len() as u32;
    Self { desk, source }
  }

  /// The checks that the list fails.
  pub fn failed(&self, list: &[Call]) -> BTreeSet<Check> {
    let mut failed = self.not_apart(list);
    if !list.iter().all(|call| self.accepts(call)) {
      failed.insert(ALONE);
    }
    if !self.left(list).is_enough() {
      failed.insert(SPACE);
    }
    failed
  }

  /// Those of them that look at the source and at the edits, not at the desk.
  pub fn not_apart(&self, list: &[Call]) -> BTreeSet<Check> {
    let mut failed = BTreeSet::new();
    if self.source == 0 {
      failed.insert(SOURCE);
    }
    for (place, call) in list.iter().enumerate() {
      failed.extend(self.not_apart_by(call, &list[..place]));
    }
    failed
  }

  /// The checks that an edit fails by itself, or beside one of the others.
  pub fn failed_by(&self, call: &Call, others: &[Call]) -> BTreeSet<Check> {
    let mut failed = self.not_apart_by(call, others);
    if !self.accepts(call) {
      failed.insert(ALONE);
    }
    failed
  }

  fn not_apart_by(&self, call: &Call, others: &[Call]) -> BTreeSet<Check> {
    let mut failed = BTreeSet::new();
    let mut check = |check: Check, holds: bool| {
      if !holds {
        failed.insert(check);
      }
    };
    check(EDIT, listed(call));
    check(WIDTH, range(call).is_none_or(|(start, end)| start < end));
    check(WITHIN_SOURCE, call.positions().iter().all(|&at| at <= self.source));
    for other in others {
      check(REACHES, self.reach(call).is_apart_from(self.reach(other)));
      check(ONE_MOVE, !(is_move(call) && is_move(other)));
      check(MOVES_FREE, is_free_of(call, other) && is_free_of(other, call));
    }
    failed
  }

  /// Whether an edit is accepted alone.
  pub fn accepts(&self, call: &Call) -> bool {
    self.alone(call) == number::ACCEPTED
  }

  /// The number that an edit gets alone.
  pub fn alone(&self, call: &Call) -> u32 {
    apply(&mut self.desk.clone(), call).number
  }

  /// The reckoning: 3 chunks for each edit, a piece for each insertion, and all
  /// texts.
  pub fn left(&self, list: &[Call]) -> Left {
    let Counts { chunks, pieces, bytes } = self.desk.counts();
    let limits = self.desk.limits();
    let texts = list.iter().filter_map(Call::text).map(<[u8]>::len).sum::<usize>();
    let insertions = list.iter().filter(|call| inserts(call)).count();
    let left = |limit: usize, used: usize| limit as i64 - used as i64;
    Left {
      chunks: left(limits.chunks, chunks + 3 * list.len()),
      pieces: left(limits.pieces, pieces + insertions),
      bytes: left(limits.bytes, bytes + texts),
    }
  }

  /// What an edit reaches.
  fn reach(&self, call: &Call) -> Reach {
    match *call {
      Call::Remove { start, end } | Call::Reset { start, end } => Reach::Bytes(start, end),
      Call::UpdateWith { start, end, .. } => Reach::Bytes(start, end),
      Call::Insert { at: 0, setting, .. } if setting.left => Reach::Head,
      Call::Insert { at, setting, .. } if setting.left => Reach::Bytes(at - 1, at),
      Call::Insert { at, .. } if at < self.source => Reach::Bytes(at, at + 1),
      Call::Insert { .. } | Call::Append { .. } => Reach::Tail,
      Call::Prepend { .. } => Reach::Head,
      _ => Reach::Nothing,
    }
  }
}

/// Bytes of the source from the first up to but without the second, the head or
/// the tail; a move reaches nothing.
#[derive(Debug, Clone, Copy, PartialEq, Eq)]
enum Reach {
  Bytes(u32, u32),
  Head,
  Tail,
  Nothing,
}

impl Reach {
  fn is_apart_from(self, other: Reach) -> bool {
    match (self, other) {
      (Reach::Bytes(start, end), Reach::Bytes(from, to)) => start.max(from) >= end.min(to),
      (Reach::Head, Reach::Head) | (Reach::Tail, Reach::Tail) => false,
      _ => true,
    }
  }
}

/// The edits that the rule is of.
pub fn listed(call: &Call) -> bool {
  range(call).is_some() || inserts(call) || is_move(call)
}

/// The range of a removal, replacement or reset.
fn range(call: &Call) -> Option<(u32, u32)> {
  match *call {
    Call::Remove { start, end } | Call::Reset { start, end } => Some((start, end)),
    Call::UpdateWith { start, end, .. } => Some((start, end)),
    _ => None,
  }
}

pub fn inserts(call: &Call) -> bool {
  matches!(call, Call::Insert { .. } | Call::Append { .. } | Call::Prepend { .. })
}

pub fn is_move(call: &Call) -> bool {
  matches!(call, Call::Relocate { .. })
}

/// If the call is a move, none of its positions lies strictly inside a range that
/// the other replaces.
fn is_free_of(call: &Call, other: &Call) -> bool {
  let Call::UpdateWith { start, end, .. } = *other else { return true };
  !is_move(call) || call.positions().iter().all(|&at| at <= start || end <= at)
}
