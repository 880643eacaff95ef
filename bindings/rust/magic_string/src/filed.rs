//! The memory of one record of filed calls (docs/LAYOUT.md).

use crate::layout::*;

/// What is lent to the calls on a record. `Sitting` holds one that was empty at first, and
/// these keep it well formed. The examiner's marks lie in its bytes, so it is not shown as it
/// is, and nothing that a `Member` has reads them.
#[derive(Clone)]
pub struct Filed {
  pub words: Box<[u32]>,
  pub bytes: Box<[u8]>,
}

/// A record without calls.
impl Default for Filed {
  fn default() -> Self {
    Self { words: vec![0; RECORD_WORDS_LEN].into(), bytes: vec![0; RECORD_BYTES_LEN].into() }
  }
}

impl Filed {
  /// The filed calls, as records of a sheet.
  pub fn calls(&self) -> &[u8] {
    &self.bytes[..self.words[RECORD_USED] as usize]
  }

  /// The answers, the first ones those of the filed calls.
  pub fn answers(&self) -> &[u8] {
    &self.bytes[RECORD_ANSWERS..RECORD_MARKS]
  }

  /// The marks, in the same order.
  pub fn marks(&self) -> &[u8] {
    &self.bytes[RECORD_MARKS..KEPT_STORE]
  }

  /// The tables of the desk before the first filed call: chunks, pieces, store. They hold
  /// one if there are calls.
  pub fn kept(&self) -> (&[u32], &[u32], &[u8]) {
    let (chunks, pieces) = self.words[KEPT_CHUNKS..].split_at(CHUNKS_LEN);
    (chunks, pieces, &self.bytes[KEPT_STORE..])
  }
}
