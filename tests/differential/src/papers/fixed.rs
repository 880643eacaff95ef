//! Papers whose answers are written down: trims and indents at the limits and one
//! past. Each call gets the desk of the start.

use oracle::{Call, ChunkData, DeskData};

use crate::{Made, Paper, Start, layout::*};

/// Each paper with the numbers of its calls.
pub fn papers() -> Vec<(Paper, Vec<u32>)> {
  let trim = |tail: String, calls: &[(Call, u32)]| {
    paper(desk("  a", Vec::new(), vec![tail]), calls.to_vec())
  };
  let indent = |source: &str, pieces: usize, calls: &[(Call, u32)]| {
    paper(desk(source, vec![String::new(); pieces], Vec::new()), calls.to_vec())
  };
  let by = |indentor: usize, number: u32| {
    let call = Call::IndentWith { indentor: Some(vec![b'\t'; indentor]), exclude: Vec::new() };
    (call, number)
  };
  vec![
    // The chunk's "a" becomes a replacement. `trim` drops the tail's blanks too,
    // so that it is accepted where `trim_start` alone is past the limit.
    trim(
      " ".repeat(MOST_BYTES),
      &[
        (Call::TrimStart { pattern: 0 }, 13),
        (Call::Trim { pattern: 0 }, 0),
        (Call::TrimStart { pattern: 1 }, 0),
      ],
    ),
    // The tail stays: one byte of room, and none.
    trim("t".repeat(MOST_BYTES - 1), &[(Call::Trim { pattern: 0 }, 0)]),
    trim("t".repeat(MOST_BYTES), &[(Call::Trim { pattern: 0 }, 13), (Call::TrimLines, 0)]),
    // A line is a chunk, a piece and the indentor's bytes.
    indent(
      &"a\n".repeat(MOST_CHUNKS),
      0,
      &[by(1, 0), by(MOST_BYTES / MOST_CHUNKS, 0), by(MOST_BYTES / MOST_CHUNKS + 1, 13)],
    ),
    indent(&"a\n".repeat(MOST_CHUNKS + 1), 0, &[by(1, 13), by(0, 0)]),
    indent(&"a\n".repeat(500), MOST_PIECES - 500, &[by(1, 0), by(MOST_BYTES + 1, 13)]),
    indent(&"a\n".repeat(500), MOST_PIECES - 499, &[by(1, 13)]),
    // An indentor that no line takes costs nothing.
    indent("\n\r\n", 0, &[by(MOST_BYTES + 1, 0)]),
    indent("a", 0, &[by(MOST_BYTES, 0), by(MOST_BYTES + 1, 13)]),
  ]
}

/// One chunk over the source.
fn desk(source: &str, head: Vec<String>, tail: Vec<String>) -> DeskData {
  let chunk = ChunkData { start: 0, end: source.len() as u32, ..Default::default() };
  DeskData { source: source.to_string(), head, tail, chunks: vec![chunk] }
}

fn paper(desk: DeskData, calls: Vec<(Call, u32)>) -> (Paper, Vec<u32>) {
  let (calls, numbers): (Vec<_>, Vec<_>) = calls.into_iter().unzip();
  let calls = calls.into_iter().map(|call| Made { call, seed: 1 }).collect();
  (Paper::each(Start::Desk { desk, seed: 1 }, calls), numbers)
}
