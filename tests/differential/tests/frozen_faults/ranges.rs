//! Removals, replacements and resets, and calls that are free.

use oracle::{Call, number::*};

use super::Fault;
use crate::frozen_rules::{before, is_guarded, reaches};

pub const FAULTS: &[Fault] = &[
  ("a removal clears a frozen chunk", |rules| {
    rules.reaches = |call, chunk, range| {
      is_guarded(call)
        && !matches!(call, Call::Remove { .. })
        && chunk.frozen
        && reaches(chunk, range)
    };
  }),
  ("a replacement clears a frozen chunk", |rules| {
    rules.reaches = |call, chunk, range| {
      let is_update = matches!(call, Call::UpdateWith { .. });
      is_guarded(call) && !is_update && chunk.frozen && reaches(chunk, range)
    };
  }),
  ("a replacement without overwrite is free", |rules| {
    rules.reaches = |call, chunk, range| {
      let is_free = matches!(call, Call::UpdateWith { overwrite: 0, .. });
      is_guarded(call) && !is_free && chunk.frozen && reaches(chunk, range)
    };
  }),
  ("a reset clears a frozen chunk", |rules| {
    rules.reaches = |call, chunk, range| {
      is_guarded(call)
        && !matches!(call, Call::Reset { .. })
        && chunk.frozen
        && reaches(chunk, range)
    };
  }),
  ("a reset of a frozen chunk without edits is free", |rules| {
    rules.reaches = |call, chunk, range| {
      let is_edited = chunk.edited_content.is_some() || !chunk.intro.is_empty();
      let is_free = matches!(call, Call::Reset { .. }) && !is_edited;
      is_guarded(call) && !is_free && chunk.frozen && reaches(chunk, range)
    };
  }),
  ("a frozen chunk at the start alone", |rules| {
    rules.reaches = |call, chunk, [start, end]| {
      let is_there = chunk.start <= start && start < chunk.end.max(1) && start < end;
      is_guarded(call) && chunk.frozen && is_there
    };
  }),
  ("a frozen chunk that is whole in the range", |rules| {
    rules.reaches = |call, chunk, [start, end]| {
      let is_whole = start <= chunk.start && chunk.end <= end && start < end;
      is_guarded(call) && chunk.frozen && is_whole
    };
  }),
  ("a frozen chunk that begins in the range before the cuts", |rules| {
    rules.reaches = |call, chunk, [start, end]| {
      is_guarded(call) && chunk.frozen && (start..end).contains(&chunk.start)
    };
  }),
  ("a frozen chunk beside the range", |rules| {
    rules.reaches = |call, chunk, [start, end]| {
      is_guarded(call) && chunk.frozen && start < end && chunk.end >= start && chunk.start < end
    };
  }),
  ("a frozen chunk behind the range", |rules| {
    rules.reaches = |call, chunk, [start, end]| {
      is_guarded(call) && chunk.frozen && start < end && chunk.end > start && chunk.start <= end
    };
  }),
  ("no frozen chunk of an empty source", |rules| {
    rules.reaches = |call, chunk, range| {
      is_guarded(call) && chunk.frozen && reaches(chunk, range) && chunk.end > 0
    };
  }),
  ("no frozen chunk where the end lies past the source", |rules| {
    rules.before = |call| {
      let past = matches!(call, Call::Remove { end, .. } if *end > 6);
      if past { [before(call), vec![ACCEPTED]].concat() } else { before(call) }
    };
  }),
  ("zero width in a frozen chunk is refused", |rules| {
    rules.reaches = |call, chunk, [start, end]| {
      let is_inside = start == end && chunk.start < start && start < chunk.end;
      is_guarded(call) && chunk.frozen && (is_inside || reaches(chunk, [start, end]))
    };
  }),
  ("an insertion in a frozen chunk is refused", |rules| {
    rules.reaches = |call, chunk, [start, end]| match call {
      Call::Insert { .. } => chunk.frozen && chunk.start < start && start < chunk.end,
      _ => is_guarded(call) && chunk.frozen && reaches(chunk, [start, end]),
    };
  }),
  ("an insertion beside a frozen chunk is refused", |rules| {
    rules.reaches = |call, chunk, [start, end]| match call {
      Call::Insert { .. } => chunk.frozen && (chunk.start == start || chunk.end == start),
      _ => is_guarded(call) && chunk.frozen && reaches(chunk, [start, end]),
    };
  }),
  ("a move of a frozen chunk is refused", |rules| {
    rules.reaches = |call, chunk, range| {
      let is_move = matches!(call, Call::Relocate { .. });
      (is_guarded(call) || is_move) && chunk.frozen && reaches(chunk, range)
    };
  }),
  ("20 before 1", |rules| rules.before = |call| without(call, NOT_UTF8)),
  ("20 before 3", |rules| rules.before = |call| without(call, INSIDE_CHARACTER)),
  ("20 before 4", |rules| {
    rules.before = |call| without(call, END_BEFORE_START);
    rules.reaches = |call, chunk, [start, end]| {
      let range = [start.min(end), start.max(end)];
      is_guarded(call) && chunk.frozen && reaches(chunk, range)
    };
  }),
  ("20 before 6", |rules| rules.before = |call| without(call, CUT_IN_REPLACEMENT)),
  ("20 before 10", |rules| rules.before = |call| without(call, PAST_SOURCE)),
  ("20 before 10 of an update", |rules| {
    rules.before = |call| match call {
      Call::UpdateWith { .. } => without(call, PAST_SOURCE),
      _ => before(call),
    };
  }),
  ("20 before 10 of a reset", |rules| {
    rules.before = |call| match call {
      Call::Reset { .. } => without(call, PAST_SOURCE),
      _ => before(call),
    };
  }),
  ("20 after 7", |rules| {
    rules.before = |call| [before(call), vec![ACROSS_MOVED_EDGE]].concat();
  }),
  ("20 before the cuts", |rules| rules.cuts = |_| Vec::new()),
  ("20 before the second cut", |rules| rules.cuts = |[start, _]| vec![start]),
  ("20 before the first cut", |rules| rules.cuts = |[_, end]| vec![end]),
  ("the end is cut first", |rules| rules.cuts = |[start, end]| vec![end, start]),
  ("no cuts stay after 20", |rules| rules.refused = |desk, _| desk.clone()),
  ("no cuts are reported with 20", |rules| {
    rules.value = |number, growth| if number == FROZEN { 0 } else { growth };
  }),
  ("13 is not judged after 20", |rules| {
    rules.judged = |made, _, desk| if made.number == FROZEN { desk } else { &made.left };
  }),
  ("13 is judged on the desk before the cuts", |rules| rules.judged = |_, _, desk| desk),
  ("13 is judged on what the Rust would leave", |rules| rules.judged = |_, rust, _| &rust.left),
];

fn without(call: &Call, number: u32) -> Vec<u32> {
  let mut before = before(call);
  before.retain(|&earlier| earlier != number);
  before
}
