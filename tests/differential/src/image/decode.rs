//! Memory as a desk.

use oracle::{ChunkData, DeskData};

use crate::layout::*;

/// The desk in this memory. It trusts the memory to be well formed.
pub fn decode(source: &[u8], chunks: &[u32], pieces: &[u32], store: &[u8]) -> DeskData {
  let word = |row: usize, word: usize| chunks[row * ROW + word] as usize;
  let text = |at: usize, n: usize| owned(&store[at..][..n]);
  let list = |row: usize, at: usize, n: usize| -> Vec<String> {
    if word(row, n) == 0 {
      return Vec::new();
    }
    let run = &pieces[word(row, at) * PIECE..][..word(row, n) * PIECE];
    run.chunks(PIECE).map(|piece| text(piece[AT] as usize, piece[N] as usize)).collect()
  };
  let mut desk = DeskData {
    source: owned(source),
    head: list(0, INTRO_AT, INTRO_N),
    tail: list(0, OUTRO_AT, OUTRO_N),
    chunks: Vec::with_capacity(word(0, START)),
  };
  let mut row = word(0, NEXT);
  while row != LIST_END as usize {
    let replaced = chunks[row * ROW + TEXT_AT] != NONE;
    desk.chunks.push(ChunkData {
      start: word(row, START) as u32,
      end: word(row, END) as u32,
      frozen: word(row, MARK) != 0,
      intro: list(row, INTRO_AT, INTRO_N),
      outro: list(row, OUTRO_AT, OUTRO_N),
      edited_content: replaced.then(|| text(word(row, TEXT_AT), word(row, TEXT_N))),
    });
    row = word(row, NEXT);
  }
  desk
}

fn owned(bytes: &[u8]) -> String {
  str::from_utf8(bytes).expect("memory that is trusted holds UTF-8").to_string()
}
