//! Random papers, each the same for the same seed.

pub mod blanks;
mod calls;
mod cuts;
pub mod fixed;
mod frozen;
pub mod in_sheet;
pub mod lines;
mod positions;
pub mod sized;
mod sweep;

pub use calls::Caller;
use oracle::{Call, generate::generate, random::Random};

use crate::{Made, Paper, Start, every_call, made};

/// Calls taken from the oracle's generator at once: enough for its papers that
/// reach a limit.
const GENERATED: usize = 600;

pub fn paper(seed: u64) -> Paper {
  let mut random = Random::new(seed);
  match random.below(400) {
    0 => sweep::paper(&mut random),
    1..=16 => generated(&mut random),
    17..=24 => cuts::paper(&mut random),
    _ => on_desk(&mut random),
  }
}

/// The oracle's own script: fresh and edited desks, and those at the limits. One
/// call comes before there is a desk.
fn generated(random: &mut Random) -> Paper {
  let early = every_call::accepted();
  let early = early[random.below(early.len())].clone();
  let calls = generate(random.number(), GENERATED).into_iter();
  let calls = [early].into_iter().chain(calls).filter(|call| *call != Call::Dump);
  let calls = calls.map(|call| Made { call, seed: random.number() }).collect();
  Paper::new(Start::Junk { seed: random.number() }, calls)
}

/// Calls on a desk made by hand.
fn on_desk(random: &mut Random) -> Paper {
  let desk = made::desk(random);
  let mut caller = Caller::new(desk.clone(), random.number());
  let calls = (0..random.between(1, 40)).map(|_| caller.call()).collect();
  let start = Start::Desk { desk, seed: random.number() };
  Paper::new(start, calls)
}
