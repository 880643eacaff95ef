//! Desks at the limits and one past them.

use oracle::random::Random;

use super::{Found, Judge};
use crate::{
  Core, Image,
  image::encode,
  layout::*,
  made::{Aim, make},
};

pub fn all<C: Core>(judge: &mut Judge<C>, random: &mut Random) -> Result<(), Found> {
  for _ in 0..20 {
    source(judge, random)?;
    chunks(judge, random)?;
    pieces(judge, random)?;
    bytes(judge, random)?;
  }
  no_chunks(judge, random)
}

fn made(aim: Aim, random: &mut Random) -> Image {
  let desk = make(aim, random);
  encode(&desk, random)
}

fn source<C: Core>(judge: &mut Judge<C>, random: &mut Random) -> Result<(), Found> {
  for source in [MOST_SOURCE - 1, MOST_SOURCE, MOST_SOURCE + 1, 2 * MOST_SOURCE] {
    let aim = Aim { source, chunks: random.between(1, 9), pieces: 4, bytes: 9 };
    judge.image("limit of the source", &mut made(aim, random))?;
  }
  Ok(())
}

/// As many chunks as there may be, with counts beside the true one.
fn chunks<C: Core>(judge: &mut Judge<C>, random: &mut Random) -> Result<(), Found> {
  let aim = Aim { source: 2_500, chunks: MOST_CHUNKS, pieces: random.below(1_000), bytes: 100 };
  let mut image = made(aim, random);
  for count in [MOST_CHUNKS, MOST_CHUNKS - 1, MOST_CHUNKS + 1, MOST_CHUNKS + 2] {
    *image.word_mut(0, START) = count as u32;
    judge.image("limit of chunks", &mut image)?;
  }
  Ok(())
}

/// Pieces up to and past the limit. The table has room for twice as many.
fn pieces<C: Core>(judge: &mut Judge<C>, random: &mut Random) -> Result<(), Found> {
  for pieces in [MOST_PIECES - 1, MOST_PIECES, MOST_PIECES + 1, PIECE_ROWS] {
    let aim = Aim { source: 200, chunks: random.between(1, 40), pieces, bytes: 300 };
    judge.image("limit of pieces", &mut made(aim, random))?;
  }
  Ok(())
}

/// A full store, and then a text that is one byte longer.
fn bytes<C: Core>(judge: &mut Judge<C>, random: &mut Random) -> Result<(), Found> {
  let aim = Aim { source: 50, chunks: 5, pieces: random.between(1, 60), bytes: MOST_BYTES };
  let mut image = made(aim, random);
  judge.image("limit of bytes", &mut image)?;
  for row in super::words::piece_rows(&image) {
    *image.piece_mut(row, N) = image.piece(row, N).wrapping_add(1);
    judge.image("limit of bytes", &mut image)?;
    *image.piece_mut(row, N) = image.piece(row, N).wrapping_sub(1);
  }
  Ok(())
}

/// Tables of junk and of zeros, with sources that need no chunk, one or two.
fn no_chunks<C: Core>(judge: &mut Judge<C>, random: &mut Random) -> Result<(), Found> {
  for source in ["", "a", "ab"] {
    for _ in 0..20 {
      judge.image("junk", &mut Image::junk(source.as_bytes().to_vec(), random))?;
    }
    let mut zeros = Image::junk(source.as_bytes().to_vec(), random);
    zeros.chunks.fill(0);
    for count in 0..3 {
      *zeros.word_mut(0, START) = count;
      judge.image("zeros", &mut zeros)?;
    }
  }
  Ok(())
}
