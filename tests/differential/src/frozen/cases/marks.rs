//! What becomes of marks, on desks and in memory.

use oracle::{Call, ChunkData, Desk, number::*};

use super::{Seen, has_marks};
use crate::layout::*;

pub fn add(seen: &Seen, add: &mut impl FnMut(String, bool)) {
  let function = seen.function().unwrap_or_default();
  let (Some(desk), Some(left)) = (seen.desk(), &seen.left) else { return };
  let (data, number) = (desk.data(), seen.answer.number);
  let is = |name: &str, numbers: &[u32]| function == name && numbers.contains(&number);
  let edges: Vec<u32> = left.data().chunks.iter().map(|chunk| chunk.start).collect();
  let positions = seen.call.as_ref().map_or(Vec::new(), Call::positions);
  let any = |is_met: &dyn Fn(&ChunkData, u32) -> bool| {
    let mut marked = data.chunks.iter().filter(|chunk| chunk.frozen);
    marked.any(|chunk| positions.iter().any(|&at| is_met(chunk, at)))
  };
  let is_cut = any(&|chunk, at| chunk.start < at && at < chunk.end && edges.contains(&at));
  for (name, numbers) in [
    ("insert", &[ACCEPTED][..]),
    ("relocate", &[ACCEPTED]),
    ("relocate", &[CUT_IN_REPLACEMENT, NOT_TOGETHER]),
    ("freeze", &[ACCEPTED]),
    ("remove", &[FROZEN]),
    ("reset", &[FROZEN]),
    ("update_with", &[FROZEN]),
    ("update_with", &[PAST_SOURCE]),
  ] {
    add(format!("{name}: {numbers:?}, a frozen chunk is cut"), is(name, numbers) && is_cut);
  }
  let is_beside = any(&|chunk, at| chunk.start == at || chunk.end == at);
  add("insert: beside a frozen chunk".to_string(), is("insert", &[ACCEPTED]) && is_beside);
  let order = |desk: &Desk| -> Vec<(bool, u32)> {
    desk.data().chunks.iter().map(|chunk| (chunk.frozen, chunk.start)).collect()
  };
  let is_moved = seen.answer.value == 0 && order(desk) != order(left) && has_marks(desk);
  add("relocate: a frozen chunk is moved".to_string(), is("relocate", &[ACCEPTED]) && is_moved);
  add("open: a desk with marks".to_string(), is("open", &[ACCEPTED]) && has_marks(desk));
  let (image, memory) = seen.sides.memory();
  let is_other = |rows: &[u32]| {
    let count = rows[START] as usize;
    rows.chunks(ROW).skip(1).take(count).any(|row| row[MARK] > 1)
  };
  add("a mark that is not 1".to_string(), is_other(&image.chunks));
  let is_kept = seen.record.as_ref().is_some_and(|record| record.kept.is_some());
  let kept = is_kept && is_other(&memory.words.lent()[KEPT_CHUNKS..KEPT_PIECES]);
  add("a mark that is not 1, kept".to_string(), kept);
}
