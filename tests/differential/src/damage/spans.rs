//! Spans changed two words at a time, so that sums and edges still agree.

use oracle::{ChunkData, DeskData, random::Random};

use super::{Found, Judge};
use crate::{Core, Image, image::encode, layout::*};

pub fn all<C: Core>(judge: &mut Judge<C>, image: &mut Image) -> Result<(), Found> {
  let (count, len) = (image.count(), image.source.len() as u32);
  let mut damaged = image.clone();
  for one in 1..=count {
    // Moved by a byte, at the same length.
    for step in [1, u32::MAX] {
      for word in [START, END] {
        *damaged.word_mut(one, word) = damaged.word(one, word).wrapping_add(step);
      }
      judge.image("spans", &mut damaged)?;
      damaged.copy_from(image);
    }
    for other in 1..=count {
      // The same span twice, and two spans exchanged, which is a desk.
      *damaged.word_mut(one, START) = image.word(other, START);
      *damaged.word_mut(one, END) = image.word(other, END);
      judge.image("spans", &mut damaged)?;
      *damaged.word_mut(other, START) = image.word(one, START);
      *damaged.word_mut(other, END) = image.word(one, END);
      judge.image("spans", &mut damaged)?;
      damaged.copy_from(image);
      // The edge between two spans at every place.
      if image.word(one, END) == image.word(other, START) {
        for edge in 0..=len + 1 {
          *damaged.word_mut(one, END) = edge;
          *damaged.word_mut(other, START) = edge;
          judge.image("spans", &mut damaged)?;
        }
        damaged.copy_from(image);
      }
    }
  }
  Ok(())
}

/// Chunks of no width beside those that cover the source, all in one list.
pub fn empty_ones<C: Core>(judge: &mut Judge<C>, random: &mut Random) -> Result<(), Found> {
  for source in ["", "a", "ab"] {
    let len = source.len() as u32;
    for more in [0, 1, 2, 5, MOST_CHUNKS - 1] {
      let mut spans: Vec<(u32, u32)> = vec![(0, len)];
      for _ in 0..more {
        let at = random.between(0, source.len()) as u32;
        spans.insert(random.below(spans.len() + 1), (at, at));
      }
      let chunk = |(start, end)| ChunkData { start, end, ..Default::default() };
      let chunks = spans.into_iter().map(chunk).collect();
      let desk = DeskData { source: source.to_string(), chunks, ..Default::default() };
      judge.image("empty spans", &mut encode(&desk, random))?;
    }
  }
  Ok(())
}
