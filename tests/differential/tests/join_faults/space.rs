//! What space is reckoned.

use std::slice;

use oracle::Call;

use super::Fault;
use crate::join_rules::{accepted, make, needed, used};

pub const FAULTS: &[Fault] = &[
  ("space of the first list", |rules| rules.reckoned = |calls| vec![calls[0].clone()]),
  ("space of the second list", |rules| rules.reckoned = |calls| vec![calls[1].clone()]),
  ("space of each list by itself", |rules| rules.reckoned = |calls| calls.to_vec()),
  ("no space is reckoned", |rules| rules.reckoned = |_| Vec::new()),
  ("space is what the calls take", |rules| {
    rules.reckoned = |_| Vec::new();
    rules.fits = |desk, calls| {
      let mut made = desk.clone();
      calls.iter().flatten().all(|call| {
        let fits = accepted(&made, call);
        make(&mut made, slice::from_ref(call));
        fits
      })
    };
  }),
  ("a call makes two cuts at most", |rules| rules.needed = |call| with(needed(call), 0, 2)),
  ("a call makes four cuts at most", |rules| rules.needed = |call| with(needed(call), 0, 4)),
  ("a call without a move makes two cuts at most", |rules| {
    rules.needed = |call| match call {
      Call::Relocate { .. } => needed(call),
      _ => with(needed(call), 0, 2),
    };
  }),
  ("a removal makes no cuts", |rules| {
    rules.needed = |call| match call {
      Call::Remove { .. } => with(needed(call), 0, 0),
      _ => needed(call),
    };
  }),
  ("chunks are not reckoned", |rules| rules.needed = |call| with(needed(call), 0, 0)),
  ("pieces are not reckoned", |rules| rules.needed = |call| with(needed(call), 1, 0)),
  ("bytes are not reckoned", |rules| rules.needed = |call| with(needed(call), 2, 0)),
  ("a replacement takes a piece", |rules| {
    rules.needed = |call| with(needed(call), 1, call.text().is_some() as usize);
  }),
  ("every call takes a piece", |rules| rules.needed = |call| with(needed(call), 1, 1)),
  ("no text takes no piece", |rules| {
    rules.needed = |call| {
      let [_, pieces, bytes] = needed(call);
      with(needed(call), 1, pieces.min(bytes))
    };
  }),
  ("texts of insertions alone", |rules| {
    rules.needed = |call| match call {
      Call::UpdateWith { .. } => with(needed(call), 2, 0),
      _ => needed(call),
    };
  }),
  ("texts of replacements alone", |rules| {
    rules.needed = |call| match call {
      Call::Insert { .. } => with(needed(call), 2, 0),
      _ => needed(call),
    };
  }),
  ("the desk's chunks are not counted", |rules| rules.used = |desk| with(used(desk), 0, 1)),
  ("the desk's pieces are not counted", |rules| rules.used = |desk| with(used(desk), 1, 0)),
  ("the desk's bytes are not counted", |rules| rules.used = |desk| with(used(desk), 2, 0)),
  ("511 chunks", |rules| rules.most[0] -= 1),
  ("513 chunks", |rules| rules.most[0] += 1),
  ("1,023 pieces", |rules| rules.most[1] -= 1),
  ("1,025 pieces", |rules| rules.most[1] += 1),
  ("2,048 pieces", |rules| rules.most[1] *= 2),
  ("32,767 bytes", |rules| rules.most[2] -= 1),
  ("32,769 bytes", |rules| rules.most[2] += 1),
];

/// The space with another count at this place.
fn with(mut space: [usize; 3], place: usize, count: usize) -> [usize; 3] {
  space[place] = count;
  space
}
