//! Small desks to damage.

use oracle::{ChunkData, Counts, Desk, DeskData, Limits, random::Random};

use crate::{
  Sizes,
  made::{Aim, make},
};

/// Chosen desks, then some made at random.
pub fn small(random: &mut Random) -> Vec<DeskData> {
  let mut desks = vec![fresh(""), fresh("ab"), empty(), three(), four(), five()];
  for chunks in 3..=5 {
    let aim = Aim { source: 12, chunks, pieces: 7, bytes: 24 };
    desks.push(make(aim, random));
  }
  desks
}

/// Sizes of tables that just hold the desk, that hold a little more, and half of
/// the full ones.
pub fn sizes(desk: &DeskData) -> [Sizes; 3] {
  let Counts { chunks, pieces, bytes } = Desk::build(Limits::FULL, desk).counts();
  let exact = Sizes { chunk_rows: chunks + 1, piece_rows: 2 * pieces, store: bytes };
  let more = Sizes { chunk_rows: chunks + 2, piece_rows: 2 * pieces + 1, store: bytes + 1 };
  [exact, more, Sizes::HALF]
}

fn fresh(source: &str) -> DeskData {
  let chunk = ChunkData { end: source.len() as u32, ..Default::default() };
  DeskData { source: source.to_string(), chunks: vec![chunk], ..Default::default() }
}

/// An empty source with everything that its one chunk can have.
fn empty() -> DeskData {
  let chunk = chunk(0, 0, &["é", ""], &["", "b"], Some("€"));
  DeskData {
    source: String::new(),
    head: list(&["h"]),
    tail: list(&["t", "😀"]),
    chunks: vec![chunk],
  }
}

/// Three chunks, moved, with pieces in every list.
fn three() -> DeskData {
  DeskData {
    source: "aé€😀b".to_string(),
    head: list(&["h", ""]),
    tail: list(&["", "ß"]),
    chunks: vec![
      chunk(3, 6, &["i"], &["o", "p"], None),
      chunk(6, 11, &["", "é"], &[""], Some("xé")),
      chunk(0, 3, &["j"], &["q"], Some("")),
    ],
  }
}

/// Four chunks in source order and no pieces.
fn four() -> DeskData {
  let chunks = (0..4).map(|at| chunk(at, at + 1, &[], &[], None)).collect();
  DeskData { source: "wxyz".to_string(), chunks, ..Default::default() }
}

/// Five chunks, some with texts.
fn five() -> DeskData {
  DeskData {
    source: "aébc€d".to_string(),
    head: list(&["é"]),
    tail: Vec::new(),
    chunks: vec![
      chunk(0, 1, &[], &["1"], Some("one")),
      chunk(5, 8, &["22", "2"], &[], None),
      chunk(1, 3, &[], &[], Some("")),
      chunk(8, 9, &[""], &["€"], Some("é")),
      chunk(3, 5, &[], &[], None),
    ],
  }
}

fn chunk(start: u32, end: u32, intro: &[&str], outro: &[&str], text: Option<&str>) -> ChunkData {
  let edited_content = text.map(str::to_string);
  let (intro, outro) = (list(intro), list(outro));
  ChunkData { start, end, intro, outro, edited_content, ..Default::default() }
}

fn list(texts: &[&str]) -> Vec<String> {
  texts.iter().map(|text| text.to_string()).collect()
}
