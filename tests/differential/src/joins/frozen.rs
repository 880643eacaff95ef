//! Lists on desks with frozen chunks: calls that get 20 alone, and calls that are free or lie
//! beside them.

use oracle::{
  APPEND_LEFT, APPEND_RIGHT,
  Call::{self, *},
  PREPEND_RIGHT, Setting,
};

use super::{Lists, Pair, broken::places};
use crate::layout::MOST_BYTES;

const SOURCE: &str = "abcdefghij";

/// The desk shows "abef", "cd", "XY", "hij", of which "cd" and the last are frozen.
fn in_use() -> [Call; 4] {
  [
    UpdateWith { start: 6, end: 7, overwrite: 1, text: b"XY".to_vec() },
    Freeze { start: 2, end: 4 },
    Relocate { start: 2, end: 4, to: 6 },
    Freeze { start: 7, end: 10 },
  ]
}

fn update(start: u32, end: u32, text: &[u8]) -> Call {
  UpdateWith { start, end, overwrite: 1, text: text.to_vec() }
}

fn insert(setting: Setting, at: u32) -> Call {
  Insert { at, text: b"i".to_vec(), setting }
}

pub fn all() -> Vec<Pair> {
  let tries = [
    ("frozen chunks in a range", refused()),
    ("frozen chunks, another premise broken", beside_others()),
    ("calls that are free of frozen chunks", free()),
  ];
  let mut all = Vec::new();
  for (tries, faults) in tries {
    for [first, second] in faults.iter().flat_map(|calls| places(calls)) {
      let beside = [insert(APPEND_RIGHT, 0), Remove { start: 5, end: 6 }];
      let more_first = [&beside[..1], &first[..]].concat();
      let more_second = [&second[..], &beside[1..]].concat();
      let pair = |lists| Pair::in_use(tries, SOURCE, &in_use(), lists);
      all.extend([Lists::of(&first, &second), Lists::of(&more_first, &more_second)].map(pair));
    }
  }
  all
}

/// Ranges with a frozen chunk, or a part of one.
fn refused() -> Vec<Vec<Call>> {
  let ranges = [(2, 4), (3, 4), (1, 3), (3, 5), (0, 10), (7, 8), (6, 8), (9, 10)];
  let calls =
    |(start, end)| [Remove { start, end }, Reset { start, end }, update(start, end, b"U")];
  ranges.into_iter().flat_map(calls).map(|call| vec![call]).collect()
}

/// 18 before it and 13 behind it.
fn beside_others() -> Vec<Vec<Call>> {
  vec![
    vec![Remove { start: 2, end: 3 }, Reset { start: 2, end: 4 }],
    vec![update(8, 9, b"U"), Relocate { start: 8, end: 9, to: 0 }],
    vec![Remove { start: 8, end: 11 }],
    vec![Reset { start: 3, end: 2 }],
    vec![Remove { start: 3, end: 4 }, update(4, 5, &[b'x'; MOST_BYTES - 2])],
  ]
}

/// Insertions, moves of frozen chunks and through them, and ranges beside them.
fn free() -> Vec<Vec<Call>> {
  vec![
    vec![insert(APPEND_LEFT, 3), insert(APPEND_RIGHT, 3)],
    vec![insert(PREPEND_RIGHT, 2), insert(APPEND_LEFT, 4)],
    vec![Relocate { start: 2, end: 4, to: 0 }, insert(APPEND_LEFT, 9)],
    vec![Relocate { start: 8, end: 9, to: 0 }, Remove { start: 4, end: 5 }],
    vec![Relocate { start: 4, end: 5, to: 3 }, insert(APPEND_RIGHT, 8)],
    vec![Remove { start: 0, end: 2 }, update(4, 5, b"U")],
    vec![Reset { start: 6, end: 7 }, insert(APPEND_RIGHT, 7)],
  ]
}
