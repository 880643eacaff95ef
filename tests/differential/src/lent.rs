//! What a caller lends to an exported function.

use crate::{Sizes, layout::*};

/// The four slices of a desk. Their lengths are the caller's: other lengths than
/// the layout's are no desk.
#[derive(Debug)]
pub struct Lent<'a> {
  pub source: &'a [u8],
  pub chunks: &'a mut [u32],
  pub pieces: &'a mut [u32],
  pub store: &'a mut [u8],
}

/// The two slices of a record of filed calls, of any lengths too.
#[derive(Debug)]
pub struct LentRecord<'a> {
  pub words: &'a mut [u32],
  pub bytes: &'a mut [u8],
}

/// A record without calls, in memory of its own.
#[derive(Debug)]
pub struct NoCalls {
  words: Vec<u32>,
  bytes: Vec<u8>,
}

impl NoCalls {
  /// With this in all other cells, which are not looked at.
  pub fn among(junk: u32) -> Self {
    let mut words = vec![junk; RECORD_WORDS_LEN];
    words[RECORD_USED] = 0;
    Self { words, bytes: vec![junk as u8; RECORD_BYTES_LEN] }
  }

  pub fn lend(&mut self) -> LentRecord<'_> {
    LentRecord { words: &mut self.words, bytes: &mut self.bytes }
  }
}

impl Lent<'_> {
  /// The sizes of the tables; none where they are no desk's.
  pub fn sizes(&self) -> Option<Sizes> {
    Sizes::of(self.chunks, self.pieces, self.store)
  }
}
