//! What the second reading does on desks as data.

use oracle::{ChunkData, Desk, DeskData, Limits};

/// The desk without marks.
pub fn bare(desk: &DeskData) -> DeskData {
  let mut bare = desk.clone();
  bare.chunks.iter_mut().for_each(|chunk| chunk.frozen = false);
  bare
}

/// Whether the desk keeps the limits.
pub fn holds(desk: &DeskData) -> bool {
  Limits::FULL.hold(Desk::build(Limits::NONE, desk).counts())
}

/// Whether bytes of the chunk, or its start, lie in the range.
pub fn reaches(chunk: &ChunkData, [start, end]: [u32; 2]) -> bool {
  start < end && chunk.start < end && (chunk.start >= start || chunk.end > start)
}

/// Makes two chunks of the one that holds the position, if one does. False where that is
/// refused.
pub fn cut(desk: &mut DeskData, at: u32) -> bool {
  let holds = |chunk: &ChunkData| chunk.start < at && at < chunk.end;
  let Some(place) = desk.chunks.iter().position(holds) else { return true };
  let first = &mut desk.chunks[place];
  if first.edited_content.as_ref().is_some_and(|text| !text.is_empty()) {
    return false;
  }
  let second = ChunkData {
    start: at,
    end: std::mem::replace(&mut first.end, at),
    frozen: first.frozen,
    intro: Vec::new(),
    outro: std::mem::take(&mut first.outro),
    edited_content: first.edited_content.clone(),
  };
  desk.chunks.insert(place + 1, second);
  true
}
