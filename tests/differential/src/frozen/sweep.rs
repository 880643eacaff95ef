//! Every call with two positions at every range of small desks with frozen chunks, up to two
//! bytes past the end, each from that desk; and every other call on them.

use oracle::{
  Call::{self, *},
  insertions,
};

use crate::sittings::{
  Sitting, Written,
  steps::{action, both_ways, desk, freeze, insert, relocate, remove, update},
};

pub fn all() -> Vec<Sitting> {
  DESKS.iter().flat_map(|(source, calls)| on(source, &calls())).collect()
}

/// A source, and the calls that lead to the desk.
type Before = (&'static str, fn() -> Vec<Call>);

const DESKS: [Before; 8] = [
  // One frozen chunk between two others.
  ("abcdef", || vec![freeze(2, 4)]),
  // At the front, before a replacement; and at the end, behind an emptied chunk.
  ("abcdef", || vec![freeze(0, 2), update(3, 5, b"XY")]),
  ("abcdef", || vec![freeze(4, 6), remove(1, 3)]),
  // A moved one, and one that others were moved round.
  ("abcdef", || vec![freeze(1, 3), relocate(1, 3, 6)]),
  ("abcdef", || vec![freeze(3, 4), relocate(0, 1, 5)]),
  // A replaced one and an emptied one, with pieces.
  ("abcdef", || vec![update(1, 3, b"XY"), remove(4, 5), freeze(1, 5), insert(3, b"p")]),
  // All of it, in chunks.
  ("abcd", || vec![insert(2, b""), freeze(0, 4)]),
  // Characters of some bytes.
  ("aé€b", || vec![freeze(1, 3)]),
];

fn on(source: &str, calls: &[Call]) -> Vec<Sitting> {
  let data = desk(source, calls);
  let of = |action| {
    let record = Written::calls(&[]);
    Sitting::on("every range of a small desk", data.clone(), record, vec![action])
  };
  let mut all: Vec<Sitting> = ranges(source).into_iter().map(action).map(of).collect();
  for call in others(source) {
    let actions = vec![action(call), action(ToString { room: None })];
    all.extend(both_ways("every call on a small desk", source, calls, actions));
  }
  all
}

/// The calls with two positions.
fn ranges(source: &str) -> Vec<Call> {
  let len = source.len() as u32;
  let last = len + 2;
  let pairs = (0..=last).flat_map(|start| (0..=last).map(move |end| (start, end)));
  let calls = |(start, end)| {
    [
      remove(start, end),
      Reset { start, end },
      update(start, end, b"U"),
      UpdateWith { start, end, overwrite: 0, text: Vec::new() },
      freeze(start, end),
      relocate(start, end, len),
      relocate(start, end, 0),
    ]
  };
  pairs.flat_map(calls).collect()
}

/// Those with one position or none.
fn others(source: &str) -> Vec<Call> {
  let mut calls = Vec::new();
  for at in 0..=source.len() as u32 + 1 {
    calls.extend(insertions(at, b"i"));
  }
  for pattern in 0..3 {
    calls.extend([Trim { pattern }, TrimStart { pattern }, TrimEnd { pattern }]);
  }
  for indentor in [None, Some(Vec::new()), Some(b">".to_vec()), Some(b"\xff".to_vec())] {
    let with =
      |exclude: &[u32]| IndentWith { indentor: indentor.clone(), exclude: exclude.to_vec() };
    calls.extend([with(&[]), with(&[0, 1]), with(&[0]), with(&[0, 2])]);
  }
  let text = || b"t".to_vec();
  calls.extend([TrimLines, Append { text: text() }, Prepend { text: text() }]);
  calls.push(update(0, 1, b"\xff"));
  calls.push(Open { source: source.as_bytes().to_vec() });
  calls
}
