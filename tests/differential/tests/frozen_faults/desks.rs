//! Trims and indents.

use oracle::{Call, DeskData, number::*};

use super::Fault;
use crate::frozen_rules::before;

pub const FAULTS: &[Fault] = &[
  ("a trim is allowed", |rules| {
    rules.whole = |call, desk| !matches!(call, Call::Trim { .. }) && any(desk);
  }),
  ("a trim of the start is allowed", |rules| {
    rules.whole = |call, desk| !matches!(call, Call::TrimStart { .. }) && any(desk);
  }),
  ("a trim of the end is allowed", |rules| {
    rules.whole = |call, desk| !matches!(call, Call::TrimEnd { .. }) && any(desk);
  }),
  ("a trim of line ends is allowed", |rules| {
    rules.whole = |call, desk| *call != Call::TrimLines && any(desk);
  }),
  ("an indent is allowed", |rules| {
    rules.whole = |call, desk| !matches!(call, Call::IndentWith { .. }) && any(desk);
  }),
  ("an indent without indentor is allowed", |rules| {
    rules.whole =
      |call, desk| !matches!(call, Call::IndentWith { indentor: None, .. }) && any(desk);
  }),
  ("the first chunk of the list is looked at", |rules| {
    rules.whole = |_, desk| desk.chunks[0].frozen;
  }),
  ("the last chunk of the list is looked at", |rules| {
    rules.whole = |_, desk| desk.chunks.last().is_some_and(|chunk| chunk.frozen);
  }),
  ("frozen chunks without a replacement are looked at", |rules| {
    rules.whole =
      |_, desk| desk.chunks.iter().any(|chunk| chunk.frozen && chunk.edited_content.is_none());
  }),
  ("frozen chunks of a byte or more are looked at", |rules| {
    rules.whole = |_, desk| desk.chunks.iter().any(|chunk| chunk.frozen && chunk.end > 0);
  }),
  ("20 before 15", |rules| rules.before = |call| without(call, BAD_OPTION)),
  ("an indent's 20 before 1", |rules| rules.before = |call| of_indent(call, NOT_UTF8)),
  ("an indent's 20 before 3", |rules| rules.before = |call| of_indent(call, INSIDE_CHARACTER)),
  ("the empty indentor before 20", |rules| rules.nothing_first = true),
  ("13 before 20", |rules| rules.limit_first = true),
];

fn any(desk: &DeskData) -> bool {
  desk.chunks.iter().any(|chunk| chunk.frozen)
}

fn without(call: &Call, number: u32) -> Vec<u32> {
  before(call).into_iter().filter(|&earlier| earlier != number).collect()
}

fn of_indent(call: &Call, number: u32) -> Vec<u32> {
  match call {
    Call::IndentWith { .. } => without(call, number),
    _ => before(call),
  }
}
