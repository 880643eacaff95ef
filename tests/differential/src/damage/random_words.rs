//! One to three words changed at random, on desks made at random.

use oracle::random::Random;

use super::{Found, Judge, words::piece_rows};
use crate::{
  Core, Image,
  image::encode,
  layout::*,
  made::{Aim, make},
};

const IMAGES: usize = 6_000;

pub fn all<C: Core>(judge: &mut Judge<C>, random: &mut Random) -> Result<(), Found> {
  for _ in 0..IMAGES {
    let aim = Aim::small(random);
    let desk = make(aim, random);
    let mut image = encode(&desk, random);
    for _ in 0..random.between(1, 3) {
      change(&mut image, random);
    }
    judge.image("words at random", &mut image)?;
  }
  Ok(())
}

/// Takes a word from elsewhere, or a step to the side, or a small number.
fn change(image: &mut Image, random: &mut Random) {
  let elsewhere = *word(image, random);
  let small = random.below(24) as u32;
  let step = [1, 2, u32::MAX, u32::MAX - 1][random.below(4)];
  let which = random.below(3);
  let changed = word(image, random);
  *changed = [elsewhere, small, changed.wrapping_add(step)][which];
}

/// A word of a row in use.
fn word<'a>(image: &'a mut Image, random: &mut Random) -> &'a mut u32 {
  if random.one_in(4) && image.count() <= MOST_CHUNKS {
    let rows = rows(image);
    return image.piece_mut(rows[random.below(rows.len())], random.below(2));
  }
  let rows = (image.count() + 1).min(20);
  image.word_mut(random.below(rows), random.below(10))
}

/// The rows of lists that are not damaged.
fn rows(image: &Image) -> Vec<usize> {
  let mut sound = image.clone();
  for row in 0..=sound.count() {
    for n in [INTRO_N, OUTRO_N] {
      if sound.word(row, n) > 100 {
        *sound.word_mut(row, n) = 0;
      }
    }
  }
  let mut rows = piece_rows(&sound);
  rows.retain(|&row| row < PIECE_ROWS);
  rows
}
