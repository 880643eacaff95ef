//! Edits on desks in tables of any size, as the inner functions take them: the
//! full and the half size, small and odd ones. Most are made in lists, so that
//! what a desk uses is handed from edit to edit; some call by call.

use oracle::{
  Call, DeskData, Limits,
  generate::{Caller as _, generate_within},
  random::Random,
};

use super::Caller;
use crate::{
  Made, Paper, Sizes, Start,
  made::{Aim, make},
};

/// Calls taken from the oracle's generator at once.
const GENERATED: usize = 300;

/// Sizes at the edges of what tables may have: rows of chunks and of pieces, and
/// bytes of store.
const ODD: [(usize, usize, usize); 24] = [
  // One chunk.
  (2, 0, 0),
  (2, 1, 1),
  (2, 2, 63),
  (2, 3, 64),
  (2, 8, 65),
  // Few chunks, an odd count of piece rows, stores around a word of marks.
  (3, 4, 0),
  (3, 5, 64),
  (4, 7, 12),
  (4, 8, 12),
  (4, 9, 13),
  (5, 6, 1),
  (6, 31, 127),
  (9, 33, 128),
  (17, 63, 129),
  (64, 127, 65),
  (65, 129, 63),
  // Beside the half and the full size.
  (256, 1_023, 16_383),
  (258, 1_025, 16_385),
  (512, 2_047, 32_767),
  // One table alone is long.
  (513, 0, 0),
  (2, 2_048, 0),
  (2, 0, 32_768),
  (513, 2_048, 64),
  (513, 64, 32_768),
];

pub fn paper(seed: u64) -> Paper {
  let mut random = Random::new(seed);
  let sizes = any_sizes(&mut random);
  let paper = match random.below(30) {
    0 => generated(sizes.limits(), &mut random),
    1 | 2 => cuts(sizes.limits(), &mut random),
    _ => on_desk(sizes.limits(), &mut random),
  };
  Paper { sizes, ..paper }
}

fn any_sizes(random: &mut Random) -> Sizes {
  match random.below(12) {
    0 => Sizes::FULL,
    1 | 2 => Sizes::HALF,
    3..=6 => {
      let (chunk_rows, piece_rows, store) = ODD[random.below(ODD.len())];
      Sizes { chunk_rows, piece_rows, store }
    }
    7..=10 => Sizes {
      chunk_rows: random.between(2, 9),
      piece_rows: random.between(0, 20),
      store: random.between(0, 70),
    },
    _ => Sizes {
      chunk_rows: random.between(2, 120),
      piece_rows: random.between(0, 250),
      store: random.between(0, 2_000),
    },
  }
}

/// How many edits are made at once: one by one, in short lists, or all.
fn any_list(random: &mut Random) -> usize {
  [1, 1, 2, 3, 8, 30, usize::MAX, usize::MAX][random.below(8)]
}

/// The edits of the oracle's own script: fresh and edited desks, and those at the
/// limits.
fn generated(limits: Limits, random: &mut Random) -> Paper {
  let calls = generate_within(limits, random.number(), GENERATED).into_iter();
  let calls = calls.filter(Call::is_edit).map(without_excluded);
  let calls = calls.map(|call| Made { call, seed: random.number() }).collect();
  let start = Start::Junk { seed: random.number() };
  Paper { at_once: any_list(random), ..Paper::new(start, calls) }
}

/// Calls that cut a desk with as many chunks as there may be, or nearly, each
/// from that desk.
fn cuts(limits: Limits, random: &mut Random) -> Paper {
  let chunks = (limits.chunks - [0, 0, 1, 2][random.below(4)].min(limits.chunks)).max(1);
  let desk = make(Aim { source: 4 * chunks, chunks, ..Aim::within(limits, random) }, random);
  let mut caller = Caller::within(limits, desk.clone(), random.number());
  let calls = (0..20).map(|_| caller.cut()).collect();
  Paper::each(start(desk, random), calls)
}

/// Edits on a desk made by hand.
fn on_desk(limits: Limits, random: &mut Random) -> Paper {
  let desk = make(Aim::within(limits, random), random);
  let mut caller = Caller::within(limits, desk.clone(), random.number());
  let most = if random.one_in(10) { 200 } else { 30 };
  let calls = (0..random.between(1, most)).map(|_| caller.edit_alone()).collect();
  Paper { at_once: any_list(random), ..Paper::new(start(desk, random), calls) }
}

fn start(desk: DeskData, random: &mut Random) -> Start {
  Start::Desk { desk, seed: random.number() }
}

impl Caller {
  /// An edit, rarely an opening.
  fn edit_alone(&mut self) -> Made {
    let call = match self.random.below(120) {
      0 => Call::Open { source: self.source() },
      1..=8 => self.replace_chunk(),
      9..=95 => self.edit(),
      _ => without_excluded(self.trim_or_indent()),
    };
    self.made(call)
  }
}

/// The inner calls of the tests have no list of excluded positions.
fn without_excluded(call: Call) -> Call {
  match call {
    Call::IndentWith { indentor, .. } => Call::IndentWith { indentor, exclude: Vec::new() },
    _ => call,
  }
}
