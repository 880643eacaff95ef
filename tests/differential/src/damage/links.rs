//! Links changed: swapped, led round a chunk, in two rings, backwards, and every
//! way to lead from row to row on desks of up to three chunks.

use super::{Found, Judge};
use crate::{Core, Image, layout::*};

pub fn all<C: Core>(judge: &mut Judge<C>, image: &mut Image) -> Result<(), Found> {
  let mut damaged = image.clone();
  let count = image.count();
  for one in 0..=count {
    damaged.chunks.swap(one * ROW + NEXT, one * ROW + PREV);
    judge.image("links", &mut damaged)?;
    damaged.copy_from(image);
    pass_by(&mut damaged, one);
    judge.image("links", &mut damaged)?;
    damaged.copy_from(image);
    for other in 0..one {
      for words in [&[NEXT][..], &[PREV], &[NEXT, PREV]] {
        for word in words {
          damaged.chunks.swap(one * ROW + word, other * ROW + word);
        }
        judge.image("links", &mut damaged)?;
        damaged.copy_from(image);
      }
    }
  }
  for row in 0..=count {
    damaged.chunks.swap(row * ROW + NEXT, row * ROW + PREV);
  }
  judge.image("links", &mut damaged)?;
  if count <= 3 { every_way(judge, image) } else { Ok(()) }
}

/// The list leads past this chunk, which leads to itself.
fn pass_by(image: &mut Image, row: usize) {
  let (next, prev) = (image.word(row, NEXT), image.word(row, PREV));
  *image.word_mut(prev as usize, NEXT) = next;
  *image.word_mut(next as usize, PREV) = prev;
  *image.word_mut(row, NEXT) = row as u32;
  *image.word_mut(row, PREV) = row as u32;
}

/// Every choice of `next` for each row, with the `prev` that fits it as far as
/// one can, and with the old one.
fn every_way<C: Core>(judge: &mut Judge<C>, image: &Image) -> Result<(), Found> {
  let rows = image.count() + 1;
  let mut damaged = image.clone();
  for way in 0..rows.pow(rows as u32) {
    damaged.copy_from(image);
    for row in 0..rows {
      let next = way / rows.pow(row as u32) % rows;
      *damaged.word_mut(row, NEXT) = next as u32;
    }
    judge.image("ways to link", &mut damaged)?;
    for row in 0..rows {
      let next = damaged.word(row, NEXT) as usize;
      *damaged.word_mut(next, PREV) = row as u32;
    }
    judge.image("ways to link", &mut damaged)?;
  }
  Ok(())
}
