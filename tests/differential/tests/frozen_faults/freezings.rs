//! What a freezing does.

use oracle::{DeskData, number::*};

use super::Fault;
use crate::frozen_rules::{Ground, reaches};

pub const FAULTS: &[Fault] = &[
  ("freezing is allowed with calls filed", |rules| rules.filed = |_| false),
  ("freezing is allowed with one call filed", |rules| rules.filed = |count| count > 1),
  ("freezing is allowed with 200 calls filed", |rules| rules.filed = |count| count % 200 > 0),
  ("freezing is refused without calls", |rules| rules.filed = |_| true),
  ("a frozen range is refused", |rules| {
    rules.again = |desk, range| all(desk, range);
  }),
  ("a range that is frozen in part is refused", |rules| {
    rules.again =
      |desk, range| desk.chunks.iter().any(|chunk| chunk.frozen && reaches(chunk, range));
  }),
  ("a frozen range is thawed", |rules| {
    rules.sets = |chunk, range| chunk.frozen != reaches(chunk, range);
  }),
  ("no other chunk stays frozen", |rules| rules.sets = reaches),
  ("nothing is marked", |rules| rules.sets = |chunk, _| chunk.frozen),
  ("the first chunk is marked", |rules| {
    rules.sets = |chunk, [start, _]| chunk.frozen || chunk.start == start;
  }),
  ("the last chunk is marked", |rules| {
    rules.sets = |chunk, [_, end]| chunk.frozen || chunk.end == end;
  }),
  ("chunks without a replacement are marked", |rules| {
    rules.sets =
      |chunk, range| chunk.frozen || chunk.edited_content.is_none() && reaches(chunk, range);
  }),
  ("the chunk behind is marked too", |rules| {
    rules.sets = |chunk, [start, end]| chunk.frozen || reaches(chunk, [start, end + 1]);
  }),
  ("the chunk before is marked too", |rules| {
    rules.sets =
      |chunk, [start, end]| chunk.frozen || chunk.end == start || reaches(chunk, [start, end]);
  }),
  ("all is marked", |rules| rules.sets = |_, _| true),
  ("no cuts are reported", |rules| rules.value = |_, _| 0),
  ("cuts of an accepted freezing are not reported", |rules| {
    rules.value = |number, growth| if number == ACCEPTED { 0 } else { growth };
  }),
  ("13 is not judged", |rules| rules.judged = |_, _, desk| desk),
  ("zero width is laid out anew", |rules| rules.lays_out = true),
];

fn all(desk: &DeskData, [start, end]: [u32; 2]) -> bool {
  let mut chunks = desk.chunks.iter().filter(|chunk| reaches(chunk, [start, end]));
  start < end && chunks.all(|chunk| chunk.frozen)
}

/// What is tested before what: each two of these can be due at once.
pub const TOLD: [[Ground; 2]; 11] = {
  use Ground::*;
  [
    [Filed, Inside],
    [Filed, Nothing],
    [Filed, Turned],
    [Filed, Past],
    [Filed, Cut],
    [Inside, Nothing],
    [Inside, Turned],
    [Inside, Past],
    [Nothing, Past],
    [Turned, Past],
    [Past, Cut],
  ]
};
