//! The words of a desk's and of a record's memory (docs/LAYOUT.md) and the limits of
//! document 01, as magic_string-sys has them.

pub use magic_string_sys::layout::{
  CHUNKS as MOST_CHUNKS, CHUNKS_LEN as CHUNK_WORDS, END, INTRO_AT, INTRO_N, KEPT_CHUNKS,
  KEPT_PIECES, KEPT_STORE, LIST_END, MARK, NEXT, NO_CHAR, NONE, OUTRO_AT, OUTRO_N, PIECE,
  PIECE_AT as AT, PIECE_N as N, PIECES as MOST_PIECES, PIECES_LEN as PIECE_WORDS, PREV,
  RECORD_ANSWERS, RECORD_BYTES_LEN, RECORD_CALLS, RECORD_MARKS, RECORD_USED, RECORD_WORDS_LEN, ROW,
  SHEET_FRONT, SOURCE_BYTES as MOST_SOURCE, START, STORE_BYTES as MOST_BYTES,
  STORE_LEN as STORE_BYTES, TEXT_AT, TEXT_N,
};

/// Rows of `pieces`: twice as many as pieces may be held.
pub const PIECE_ROWS: usize = PIECE_WORDS / PIECE;

/// The lengths of words and bytes that records had before they kept a desk, and before they
/// had marks: both are too short.
pub const WITHOUT_KEPT: [usize; 2] = [KEPT_CHUNKS, RECORD_MARKS];
pub const WITHOUT_MARKS: [usize; 2] = [RECORD_WORDS_LEN, RECORD_BYTES_LEN - RECORD_CALLS];
