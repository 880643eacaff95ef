//! Tables of other lengths, over any words.

use super::{Found, Judge};
use crate::{Core, Image, layout::*};

pub fn all<C: Core>(judge: &mut Judge<C>, image: &Image) -> Result<(), Found> {
  for len in lengths(image.chunks.len(), ROW, CHUNK_WORDS) {
    judge
      .image("length of chunks", &mut Image { chunks: of(&image.chunks, len), ..image.clone() })?;
  }
  for len in lengths(image.pieces.len(), PIECE, PIECE_WORDS) {
    judge
      .image("length of pieces", &mut Image { pieces: of(&image.pieces, len), ..image.clone() })?;
  }
  for len in lengths(image.store.len(), 8, STORE_BYTES) {
    judge.image("length of store", &mut Image { store: of(&image.store, len), ..image.clone() })?;
  }
  let chunks = of(&image.chunks, image.chunks.len() - ROW);
  let source = vec![0xff; MOST_SOURCE + 1];
  judge.image("length of chunks", &mut Image { chunks, source, ..image.clone() })
}

/// Beside the right one, and beside that of the full size.
fn lengths(right: usize, row: usize, full: usize) -> [usize; 12] {
  let [less, one_less] = [row, 1].map(|step| right.saturating_sub(step));
  let beside = [0, 1, row, less, one_less, right + 1, right + row, right / 2, right * 2];
  let mut lengths = [0; 12];
  lengths[..9].copy_from_slice(&beside);
  lengths[9..].copy_from_slice(&[full, full + 1, full + row]);
  lengths
}

fn of<T: Copy + Default>(table: &[T], len: usize) -> Vec<T> {
  let mut table = table.to_vec();
  table.resize(len, T::default());
  table
}
