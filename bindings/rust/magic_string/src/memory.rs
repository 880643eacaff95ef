//! The memory of one desk, and how a desk is read out of it (docs/LAYOUT.md).

use crate::layout::*;

/// What is lent to the exported functions. `MagicString` holds one that was opened
/// or checked, and every call keeps it well formed.
#[derive(Clone)]
pub struct Memory {
  pub source: Box<[u8]>,
  pub chunks: Box<[u32]>,
  pub pieces: Box<[u32]>,
  pub store: Box<[u8]>,
}

impl Memory {
  /// Tables that hold nothing yet.
  pub fn new(source: Vec<u8>) -> Self {
    Self {
      source: source.into(),
      chunks: vec![0; CHUNKS_LEN].into(),
      pieces: vec![0; PIECES_LEN].into(),
      store: vec![0; STORE_LEN].into(),
    }
  }

  pub fn source(&self) -> &str {
    utf8(&self.source)
  }

  /// A word of a row of chunks.
  pub fn word(&self, row: usize, word: usize) -> u32 {
    self.chunks[row * ROW + word]
  }

  /// The piece list that these two words of a row describe. Where an empty list
  /// begins is not looked at.
  pub fn list(&self, row: usize, at: usize, n: usize) -> Vec<&str> {
    let n = self.word(row, n) as usize;
    let at = if n == 0 { 0 } else { self.word(row, at) as usize };
    self.pieces[at * PIECE..][..n * PIECE]
      .chunks_exact(PIECE)
      .map(|piece| self.text(piece[PIECE_AT], piece[PIECE_N]))
      .collect()
  }

  /// The replacement of a row's chunk.
  pub fn replacement(&self, row: usize) -> Option<&str> {
    let at = self.word(row, TEXT_AT);
    (at != NONE).then(|| self.text(at, self.word(row, TEXT_N)))
  }

  fn text(&self, at: u32, n: u32) -> &str {
    utf8(&self.store[at as usize..][..n as usize])
  }
}

/// A text of a well-formed desk.
fn utf8(bytes: &[u8]) -> &str {
  str::from_utf8(bytes).expect("a desk's texts are UTF-8")
}
