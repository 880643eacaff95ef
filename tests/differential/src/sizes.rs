//! The lengths of a desk's tables, and the limits that a desk in them has.

use std::fmt;

use oracle::Limits;

use crate::layout::*;

#[derive(Debug, Clone, Copy, PartialEq, Eq)]
pub struct Sizes {
  pub chunk_rows: usize,
  pub piece_rows: usize,
  pub store: usize,
}

impl Sizes {
  /// Those that exported calls take.
  pub const FULL: Sizes =
    Sizes { chunk_rows: CHUNK_WORDS / ROW, piece_rows: PIECE_WORDS / PIECE, store: STORE_BYTES };

  /// Half as many chunks, pieces and bytes.
  pub const HALF: Sizes = Sizes {
    chunk_rows: MOST_CHUNKS / 2 + 1,
    piece_rows: PIECE_WORDS / PIECE / 2,
    store: STORE_BYTES / 2,
  };

  /// The sizes of these tables; none where they are no desk's: they have whole
  /// rows, a chunk's at least, and nothing above the full sizes.
  pub fn of(chunks: &[u32], pieces: &[u32], store: &[u8]) -> Option<Self> {
    let whole = chunks.len().is_multiple_of(ROW) && pieces.len().is_multiple_of(PIECE);
    let (chunk_rows, piece_rows) = (chunks.len() / ROW, pieces.len() / PIECE);
    let sizes = Self { chunk_rows, piece_rows, store: store.len() };
    let full = Self::FULL;
    let fits = chunk_rows <= full.chunk_rows && piece_rows <= full.piece_rows;
    (whole && chunk_rows > 1 && fits && sizes.store <= full.store).then_some(sizes)
  }

  /// A chunk for each row but the first, a piece for each two rows, and a byte
  /// for each of the store.
  pub fn limits(&self) -> Limits {
    let (chunks, pieces) = (self.chunk_rows - 1, self.piece_rows / 2);
    Limits { chunks, pieces, bytes: self.store, ..Limits::FULL }
  }
}

impl fmt::Display for Sizes {
  fn fmt(&self, out: &mut fmt::Formatter) -> fmt::Result {
    let Sizes { chunk_rows, piece_rows, store } = self;
    write!(out, "{chunk_rows} rows of chunks, {piece_rows} of pieces, {store} bytes of store")
  }
}
