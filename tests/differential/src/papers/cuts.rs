//! Calls that cut desks with as many chunks as there may be, or nearly, each from
//! that desk: cuts that stay after a refusal pass the limit too.

use oracle::{APPEND_LEFT, Call, generate::Caller as _, random::Random};

use super::Caller;
use crate::{
  Made, Paper, Start,
  layout::MOST_CHUNKS,
  made::{Aim, make},
};

pub fn paper(random: &mut Random) -> Paper {
  let aim = Aim {
    source: random.between(2_000, 6_000),
    chunks: MOST_CHUNKS - [0, 0, 0, 0, 1, 1, 2][random.below(7)],
    pieces: random.below(30),
    bytes: random.below(3_000),
  };
  let desk = make(aim, random);
  let mut caller = Caller::new(desk.clone(), random.number());
  let calls = (0..30).map(|_| caller.cut()).collect();
  let start = Start::Desk { desk, seed: random.number() };
  Paper::each(start, calls)
}

impl Caller {
  /// A call that cuts, chosen but not made.
  pub(super) fn cut(&mut self) -> Made {
    let mut places = [self.place(), self.place(), self.place()];
    places.sort();
    let [low, middle, high] = places;
    let call = match self.random.below(10) {
      0 | 1 => Call::Remove { start: low, end: high },
      2 => Call::UpdateWith { start: low, end: middle, overwrite: 0, text: b"X".to_vec() },
      3 => {
        let end = self.data.source.len() as u32 + self.random.below(2) as u32;
        Call::UpdateWith { start: low, end, overwrite: 1, text: self.text() }
      }
      4 => Call::Reset { start: low, end: middle },
      5 => Call::Relocate { start: low, end: middle, to: high },
      6 => Call::Relocate { start: middle, end: high, to: low },
      _ => Call::Insert { at: low, text: self.text(), setting: APPEND_LEFT },
    };
    Made { call, seed: self.random.number() }
  }

  /// Most often inside a chunk, else an edge.
  fn place(&mut self) -> u32 {
    if self.random.one_in(4) { self.edge() } else { self.between_characters() }
  }
}
