//! One word changed: every word of the rows in use and of one row past them.

use super::{Found, Judge};
use crate::{Core, Image, layout::*};

pub fn all<C: Core>(judge: &mut Judge<C>, image: &mut Image) -> Result<(), Found> {
  for row in 0..image.chunk_rows().min(image.count() + 2) {
    for word in 0..ROW {
      for value in chunk_values(image, row, word) {
        let old = std::mem::replace(image.word_mut(row, word), value);
        judge.image("a word of chunks", image)?;
        *image.word_mut(row, word) = old;
      }
    }
  }
  for row in piece_rows(image) {
    for word in [AT, N] {
      let beside = image.piece(row, 1 - word);
      for value in values(image, image.piece(row, word), beside, image.store.len() as u32) {
        let old = std::mem::replace(image.piece_mut(row, word), value);
        judge.image("a word of pieces", image)?;
        *image.piece_mut(row, word) = old;
      }
    }
  }
  wrapping_sums(judge, image)
}

/// The rows of all lists, and two that may stand in none, where there are any.
pub fn piece_rows(image: &Image) -> Vec<usize> {
  let most = image.piece_rows();
  let mut rows: Vec<usize> =
    [0, most.wrapping_sub(1)].into_iter().filter(|&row| row < most).collect();
  for row in 0..=image.count() {
    for (at, n) in [(INTRO_AT, INTRO_N), (OUTRO_AT, OUTRO_N)] {
      if image.word(row, n) > 0 {
        let at = image.word(row, at) as usize;
        rows.extend(at..at + image.word(row, n) as usize);
      }
    }
  }
  rows.sort();
  rows.dedup();
  rows
}

fn chunk_values(image: &Image, row: usize, word: usize) -> Vec<u32> {
  let old = image.word(row, word);
  // The other word of a pair, and the room that the pair lies in.
  let (other, room) = match word {
    INTRO_AT | OUTRO_AT => (word + 1, image.piece_rows()),
    INTRO_N | OUTRO_N => (word - 1, image.piece_rows()),
    TEXT_AT => (TEXT_N, image.store.len()),
    TEXT_N => (TEXT_AT, image.store.len()),
    _ => (word, image.source.len()),
  };
  let beside = image.word(row, other);
  let mut values = values(image, old, beside, room as u32);
  if (row, word) == (0, START) {
    let rows = image.chunk_rows() as u32;
    values.extend([rows - 2, rows - 1, rows]);
    // A count whose rows would wrap round to small places.
    values.extend([0x1555_5556, 0x4000_0001, 0x8000_0001]);
  }
  values
}

/// Values beside the old one, at the ends of what may stand there, and such that
/// a sum with the word beside it just fits, just does not, or wraps.
fn values(image: &Image, old: u32, beside: u32, room: u32) -> Vec<u32> {
  let (count, len) = (image.count() as u32, image.source.len() as u32);
  let fits = room.wrapping_sub(beside);
  let mut values = vec![0, 1, old.wrapping_sub(1), old.wrapping_add(1)];
  values.extend([count, count + 1, u32::MAX, u32::MAX - 1, 0x8000_0000]);
  values.extend([len, len + 1, room, room + 1]);
  values.extend([fits, fits.wrapping_add(1), 0_u32.wrapping_sub(beside)]);
  values.sort();
  values.dedup();
  values.retain(|&value| value != old);
  values
}

/// Two lists so long that their lengths add up to a small number in 32 bits.
fn wrapping_sums<C: Core>(judge: &mut Judge<C>, image: &mut Image) -> Result<(), Found> {
  let words: Vec<(usize, usize)> =
    (0..=image.count()).flat_map(|row| [(row, INTRO_N), (row, OUTRO_N)]).collect();
  let mut damaged = image.clone();
  for pair in words.windows(2) {
    for (row, word) in [pair[0], pair[1]] {
      *damaged.word_mut(row, word) = 0x8000_0000;
      *damaged.word_mut(row, word - 1) = 0x8000_0000;
    }
    judge.image("sums that wrap", &mut damaged)?;
    damaged.copy_from(image);
  }
  Ok(())
}
