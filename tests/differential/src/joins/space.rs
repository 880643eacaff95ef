//! Space that two lists just use up by the reckoning, one less and one more: of chunks,
//! pieces and bytes; and calls that have none alone.

use oracle::{
  APPEND_LEFT,
  Call::{self, *},
  ChunkData, DeskData,
};

use super::{Lists, Pair};
use crate::{any_order::Start, layout::*};

pub fn all() -> Vec<Pair> {
  [chunks(), pieces(), bytes(), freed()].concat()
}

/// Chunks of four bytes each, and so many pieces, of which one has all of the bytes.
fn desk(chunks: usize, pieces: usize, bytes: usize) -> DeskData {
  let chunk = |place: usize| {
    let (start, end) = (4 * place as u32, 4 * place as u32 + 4);
    ChunkData { start, end, ..Default::default() }
  };
  let mut head = vec![String::new(); pieces];
  if let Some(first) = head.first_mut() {
    *first = "h".repeat(bytes);
  }
  let source = "abcd".repeat(chunks);
  DeskData { source, head, tail: Vec::new(), chunks: (0..chunks).map(chunk).collect() }
}

fn insert(at: usize, len: usize) -> Call {
  Insert { at: at as u32, text: vec![b'x'; len], setting: APPEND_LEFT }
}

/// The calls in two lists, cut at each place.
fn split(tries: &'static str, desk: &DeskData, calls: &[Call]) -> Vec<Pair> {
  let at = |place| {
    let (first, second) = calls.split_at(place);
    Pair::new(tries, Start::Made(desk.clone()), Lists::of(first, second))
  };
  (0..=calls.len()).map(at).collect()
}

/// From two more than there is space for down to two less, of a limit.
fn around(limit: usize, needed: usize) -> impl Iterator<Item = usize> {
  (limit - needed - 2..=(limit - needed + 2).min(limit)).rev()
}

/// Calls that cut nothing, once, twice and three times: each is reckoned with three cuts.
fn chunks() -> Vec<Pair> {
  let kinds: [fn(usize) -> Call; 4] = [
    |place| insert(4 * place + 4, 1),
    |place| insert(4 * place + 2, 1),
    |place| Remove { start: 4 * place as u32 + 1, end: 4 * place as u32 + 3 },
    |place| Reset { start: 4 * place as u32, end: 4 * place as u32 + 3 },
  ];
  let mut all = Vec::new();
  for count in [1, 2, 5] {
    for used in around(MOST_CHUNKS, 3 * count) {
      for kind in kinds {
        let calls: Vec<Call> = (0..count).map(kind).collect();
        all.extend(split("the chunks used up", &desk(used, 0, 0), &calls));
      }
      // With a move that cuts three times, which has no space alone on some of the desks.
      let moved = Relocate { start: 1601, end: 1602, to: 1607 };
      let others = (1..count).map(|place| insert(4 * place + 2, 0));
      let calls: Vec<Call> = [moved].into_iter().chain(others).collect();
      all.extend(split("the chunks used up", &desk(used, 0, 0), &calls));
    }
  }
  all
}

/// Insertions, and beside them a removal and a replacement, which need no piece.
fn pieces() -> Vec<Pair> {
  let mut all = Vec::new();
  for count in [1, 2, 5] {
    for used in around(MOST_PIECES, count) {
      let insertions = (0..count).map(|place| insert(4 * place + 2, place % 2));
      let removal = Remove { start: 80, end: 84 };
      let update = UpdateWith { start: 84, end: 88, overwrite: 1, text: b"U".to_vec() };
      let calls: Vec<Call> = insertions.chain([removal, update]).collect();
      all.extend(split("the pieces used up", &desk(30, used, 7), &calls));
    }
  }
  all
}

/// Texts of insertions and replacements, long ones and short ones.
fn bytes() -> Vec<Pair> {
  let mut all = Vec::new();
  for lengths in [vec![1], vec![3, 4], vec![1, 0, 1, 2], vec![10_000, 22_000], vec![20_000, 1]] {
    let needed = lengths.iter().sum();
    for used in around(MOST_BYTES, needed) {
      let call = |(place, &len): (usize, &usize)| {
        let (start, end) = (4 * place as u32, 4 * place as u32 + 2);
        match place % 2 {
          0 => insert(4 * place + 2, len),
          _ => UpdateWith { start, end, overwrite: 1, text: vec![b'x'; len] },
        }
      };
      let calls: Vec<Call> = lengths.iter().enumerate().map(call).collect();
      all.extend(split("the bytes used up", &desk(30, 3, used), &calls));
    }
  }
  all
}

/// Replacements that free as much as they take: what they free is not reckoned.
fn freed() -> Vec<Pair> {
  let mut all = Vec::new();
  for more in [0, 1] {
    let mut desk = desk(30, 3, MOST_BYTES - 200);
    desk.chunks[2].edited_content = Some("r".repeat(100));
    desk.chunks[7].outro.push("o".repeat(50));
    let text = |len| vec![b'x'; len];
    let calls = [
      UpdateWith { start: 8, end: 12, overwrite: 1, text: text(30) },
      UpdateWith { start: 28, end: 32, overwrite: 1, text: text(20 + more) },
    ];
    all.extend(split("what is freed", &desk, &calls));
    // Removals free a piece, and insertions take one.
    let mut desk = desk.clone();
    desk.head = vec![String::new(); MOST_PIECES - 2 + more];
    let calls = [Remove { start: 28, end: 32 }, insert(5, 0), insert(9, 1)];
    all.extend(split("what is freed", &desk, &calls[..2]));
    all.extend(split("what is freed", &desk, &calls));
  }
  all
}
