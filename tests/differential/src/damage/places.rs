//! Lists and texts moved onto, into and beside each other.

use super::{Found, Judge, words::piece_rows};
use crate::{Core, Image, layout::*};

/// A word of one of the two tables.
#[derive(Clone, Copy)]
enum Word {
  Chunks(usize),
  Pieces(usize),
}

impl Word {
  fn read(self, image: &Image) -> u32 {
    match self {
      Word::Chunks(index) => image.chunks[index],
      Word::Pieces(index) => image.pieces[index],
    }
  }

  fn of(self, image: &mut Image) -> &mut u32 {
    match self {
      Word::Chunks(index) => &mut image.chunks[index],
      Word::Pieces(index) => &mut image.pieces[index],
    }
  }
}

/// The words that say where a block begins and how long it is.
type Block = (Word, Word);

pub fn all<C: Core>(judge: &mut Judge<C>, image: &mut Image) -> Result<(), Found> {
  let lists = lists(image);
  each_onto_each(judge, "lists moved", image, &lists)?;
  let texts = texts(image);
  each_onto_each(judge, "texts moved", image, &texts)?;
  each_split_otherwise(judge, image, &texts)
}

fn each_onto_each<C: Core>(
  judge: &mut Judge<C>,
  kind: &'static str,
  image: &mut Image,
  blocks: &[Block],
) -> Result<(), Found> {
  for &(one_at, one_n) in blocks {
    let (old, one_n) = (one_at.read(image), one_n.read(image));
    for &(at, n) in blocks {
      let (at, n) = (at.read(image), n.read(image));
      let end = at.wrapping_add(n);
      let ahead = at.wrapping_sub(one_n);
      let mut places = vec![at, at.wrapping_add(1), end.wrapping_sub(1), end, ahead];
      places.push(ahead.wrapping_add(1));
      places.sort();
      places.dedup();
      for place in places {
        *one_at.of(image) = place;
        judge.image(kind, image)?;
      }
      *one_at.of(image) = old;
    }
  }
  Ok(())
}

/// Where one text ends and another begins, the edge between them moved by a byte
/// to either side: in the middle of a character, both are cut.
fn each_split_otherwise<C: Core>(
  judge: &mut Judge<C>,
  image: &mut Image,
  texts: &[Block],
) -> Result<(), Found> {
  let mut damaged = image.clone();
  for &(one_at, one_n) in texts {
    let edge = one_at.read(image) + one_n.read(image);
    for &(at, n) in texts.iter().filter(|(at, _)| at.read(image) == edge) {
      for step in [1, u32::MAX] {
        for (word, step) in [(one_n, step), (at, step), (n, step.wrapping_neg())] {
          *word.of(&mut damaged) = word.read(image).wrapping_add(step);
        }
        judge.image("texts split otherwise", &mut damaged)?;
        damaged.copy_from(image);
      }
    }
  }
  Ok(())
}

/// The lists that have a piece.
fn lists(image: &Image) -> Vec<Block> {
  let rows = 0..=image.count();
  let words = rows.flat_map(|row| [(row, INTRO_AT, INTRO_N), (row, OUTRO_AT, OUTRO_N)]);
  let words = words.filter(|&(row, _, n)| image.word(row, n) > 0);
  words.map(|(row, at, n)| (Word::Chunks(row * ROW + at), Word::Chunks(row * ROW + n))).collect()
}

/// All texts, empty ones too.
fn texts(image: &Image) -> Vec<Block> {
  let mut texts = Vec::new();
  for (at, n) in lists(image) {
    let (at, n) = (at.read(image) as usize, n.read(image) as usize);
    for row in piece_rows(image).into_iter().filter(|row| (at..at + n).contains(row)) {
      texts.push((Word::Pieces(row * PIECE + AT), Word::Pieces(row * PIECE + N)));
    }
  }
  for row in 1..=image.count() {
    if image.word(row, TEXT_AT) != NONE {
      texts.push((Word::Chunks(row * ROW + TEXT_AT), Word::Chunks(row * ROW + TEXT_N)));
    }
  }
  texts
}
