//! Damaged memory. Each image is judged twice, by the core's `well_formed` and by
//! the transcription; where it is no desk, every call must give 2 and leave every
//! byte.

mod bytes;
mod desks;
mod judge;
mod lengths;
mod limits;
mod links;
mod places;
mod random_words;
mod spans;
mod words;

pub use judge::{Found, Judge};
use oracle::{DeskData, random::Random};

use crate::{
  Core, Image,
  image::{Style, encode, encode_in},
};

/// All damaged images of this seed.
pub fn all<C: Core>(judge: &mut Judge<C>, seed: u64) -> Result<(), Found> {
  let mut random = Random::new(seed);
  for desk in desks::small(&mut random) {
    for mut image in images(&desk, &mut random) {
      each(judge, &mut image)?;
    }
    lengths::all(judge, &encode(&desk, &mut random))?;
  }
  spans::empty_ones(judge, &mut random)?;
  bytes::sequences(judge, &mut random)?;
  limits::all(judge, &mut random)?;
  random_words::all(judge, &mut random)
}

/// Damaged memory of other sizes than the full ones: tables that just hold the
/// desk, and some that are longer.
pub fn of_any_size<C: Core>(judge: &mut Judge<C>, seed: u64) -> Result<(), Found> {
  let mut random = Random::new(seed);
  for desk in desks::small(&mut random) {
    for sizes in desks::sizes(&desk) {
      let style = Style::any(&mut random);
      for style in [Style::tight(), style] {
        let mut image = encode_in(style.sized(sizes), &desk, &mut random);
        each(judge, &mut image)?;
        lengths::all(judge, &image)?;
      }
    }
  }
  Ok(())
}

/// Each kind of damage, one place at a time.
fn each<C: Core>(judge: &mut Judge<C>, image: &mut Image) -> Result<(), Found> {
  judge.image("none", image)?;
  words::all(judge, image)?;
  links::all(judge, image)?;
  places::all(judge, image)?;
  spans::all(judge, image)?;
  bytes::all(judge, image)
}

/// Memories of the same desk: without gaps, and of any style.
fn images(desk: &DeskData, random: &mut Random) -> [Image; 3] {
  [encode_in(Style::tight(), desk, random), encode(desk, random), encode(desk, random)]
}
