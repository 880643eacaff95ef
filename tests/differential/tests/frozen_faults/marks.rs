//! Where marks are read, and what becomes of them.

use differential::layout::{MARK, MOST_CHUNKS, ROW, START};
use oracle::Call;

use super::Fault;

pub const FAULTS: &[Fault] = &[
  ("a cut gives the mark to the first half", |rules| rules.halves = |mark| [mark, false]),
  ("a cut gives the mark to the second half", |rules| rules.halves = |mark| [false, mark]),
  ("a cut clears the mark", |rules| rules.halves = |_| [false, false]),
  ("a cut sets the mark", |rules| rules.halves = |_| [true, true]),
  ("a mark is 1", |rules| rules.mark = |word| word == 1),
  ("a mark is odd", |rules| rules.mark = |word| word % 2 == 1),
  ("8 bits of a mark", |rules| rules.mark = |word| word as u8 != 0),
  ("16 bits of a mark", |rules| rules.mark = |word| word as u16 != 0),
  ("31 bits of a mark", |rules| rules.mark = |word| word << 1 != 0),
  ("the desk's own row has a mark", |rules| rules.also_marked = |lent| lent.chunks[MARK] != 0),
  ("a row past the count has a mark", |rules| {
    rules.also_marked = |lent| {
      let count = lent.chunks[START] as usize;
      count < MOST_CHUNKS && lent.chunks[(count + 1) * ROW + MARK] != 0
    };
  }),
  ("the spare word is a mark", |rules| {
    rules.also_marked = |lent| lent.chunks[ROW + MARK + 1] != 0;
  }),
  ("a move clears the marks", |rules| {
    rules.behind = |call, desk| {
      if let Call::Relocate { start, end, .. } = *call {
        let moved = desk.chunks.iter_mut().filter(|chunk| (start..end).contains(&chunk.start));
        moved.for_each(|chunk| chunk.frozen = false);
      }
    };
  }),
  ("an insertion clears the marks beside it", |rules| {
    rules.behind = |call, desk| {
      if let Call::Insert { at, .. } = *call {
        let beside = desk.chunks.iter_mut().filter(|chunk| chunk.start == at || chunk.end == at);
        beside.for_each(|chunk| chunk.frozen = false);
      }
    };
  }),
  ("an addition clears the marks", |rules| {
    rules.behind = |call, desk| {
      if matches!(call, Call::Append { .. } | Call::Prepend { .. }) {
        desk.chunks.iter_mut().for_each(|chunk| chunk.frozen = false);
      }
    };
  }),
  ("an opening leaves the first mark", |rules| {
    rules.opened =
      |lent| (1..=MOST_CHUNKS as u32).contains(&lent.chunks[START]) && lent.chunks[ROW + MARK] != 0;
  }),
];
