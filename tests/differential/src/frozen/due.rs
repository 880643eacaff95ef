//! Desks at their limits, where 13 is due beside 20; and the chunk of an empty source, whose
//! mark only memory made by hand has.

use std::slice;

use oracle::{
  APPEND_LEFT,
  Call::{self, *},
  ChunkData, DeskData,
};

use crate::{
  layout::*,
  sittings::{
    Action, Sitting, Written,
    steps::{action, both_ways, desk, freeze, insert, relocate, remove, update},
  },
};

pub fn all() -> Vec<Sitting> {
  [chunks(), bytes(), trims(), empty_sources()].concat()
}

/// A call on the desk that others leave.
fn each(tries: &'static str, source: &str, before: &[Call], calls: Vec<Call>) -> Vec<Sitting> {
  let of = |call| both_ways(tries, source, before, vec![action(call)]);
  calls.into_iter().flat_map(of).collect()
}

/// As many chunks as there may be, one less or two, the second of which is frozen: cuts that
/// 20 would leave pass the limit. Beside calls, a freezing does not come to it.
fn chunks() -> Vec<Sitting> {
  let source = "abc".repeat(MOST_CHUNKS);
  let mut all = Vec::new();
  for fewer in 0..3 {
    let cuts = (1..MOST_CHUNKS as u32 - fewer).map(|place| insert(3 * place, b""));
    let desk = desk(&source, &cuts.chain([freeze(3, 6)]).collect::<Vec<_>>());
    let mut calls = Vec::new();
    for (start, end) in [(4, 5), (4, 7), (2, 4), (2, 7), (3, 6), (4, 6), (0, 4), (7, 8)] {
      let text = b"U".to_vec();
      calls.extend([
        remove(start, end),
        Reset { start, end },
        UpdateWith { start, end, overwrite: 0, text },
        freeze(start, end),
        relocate(start, end, 10),
      ]);
    }
    let past = source.len() as u32 + 1;
    calls.extend([update(4, past, b""), remove(4, past), insert(4, b"i")]);
    let on =
      |record, call| Sitting::on("chunks at the limit", desk.clone(), record, vec![action(call)]);
    all.push(on(Written::calls(&[remove(0, 1)]), freeze(4, 8)));
    all.extend(calls.into_iter().map(|call| on(Written::calls(&[]), call)));
  }
  all
}

/// As many bytes as there may be: the text of a replacement that is refused has none.
fn bytes() -> Vec<Sitting> {
  let before = [insert(0, &[b'x'; MOST_BYTES - 1]), freeze(2, 4)];
  let calls = [b"".as_slice(), b"U", b"UU"].into_iter().flat_map(|text| {
    let setting = APPEND_LEFT;
    [
      update(2, 4, text),
      update(1, 3, text),
      update(4, 6, text),
      Insert { at: 3, text: text.to_vec(), setting },
    ]
  });
  each("bytes at the limit", "abcdef", &before, calls.collect())
}

/// Trims and an indent that would break the limit of bytes, and some that would not: where a
/// chunk is frozen, and where none is.
fn trims() -> Vec<Sitting> {
  let source = format!("\n{}\n", "x".repeat(100));
  let mut all = Vec::new();
  for less in [20, 40, 200] {
    let filled = insert(51, &vec![b'y'; MOST_BYTES - less]);
    for before in [&[filled.clone(), freeze(0, 51)][..], slice::from_ref(&filled)] {
      let mut calls = vec![TrimLines];
      for pattern in 0..2 {
        calls.extend([Trim { pattern }, TrimStart { pattern }, TrimEnd { pattern }]);
      }
      for indentor in [None, Some(Vec::new()), Some(vec![b'>'; 60])] {
        calls.push(IndentWith { indentor, exclude: Vec::new() });
      }
      all.extend(each("trims at the limit", &source, before, calls));
    }
  }
  all
}

/// With the mark and without.
fn empty_sources() -> Vec<Sitting> {
  let mut all = Vec::new();
  for frozen in [true, false] {
    for edited_content in [None, Some(String::new()), Some("r".to_string())] {
      let intro = vec![" i".to_string()];
      let chunk = ChunkData { frozen, intro, edited_content, ..Default::default() };
      let desk = DeskData { chunks: vec![chunk], ..Default::default() };
      let mut actions = vec![Action::file(&remove(0, 1)), Action::Withdraw(1)];
      for (start, end) in [(0, 1), (0, u32::MAX), (1, 2), (0, 0), (1, 0)] {
        let calls = [remove(start, end), Reset { start, end }, update(start, end, b"U")];
        actions.extend(calls.into_iter().chain([freeze(start, end)]).map(action));
      }
      let indent = IndentWith { indentor: Some(Vec::new()), exclude: Vec::new() };
      actions.extend([insert(0, b"l"), relocate(0, 0, 0), indent, Trim { pattern: 0 }].map(action));
      let record = Written::calls(&[]);
      all.push(Sitting::on("an empty source", desk, record, actions));
    }
  }
  all
}
