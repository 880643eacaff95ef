//! A paper: a desk to start from and the calls that are made on it.

use std::fmt;

use oracle::{Call, DeskData, dump, random::Random};

use crate::{
  Image, Sizes,
  image::{Style, encode_in},
};

#[derive(Debug, Clone)]
pub struct Paper {
  /// Of the tables.
  pub sizes: Sizes,
  pub start: Start,
  pub calls: Vec<Made>,
  /// Whether each call gets the desk of the start, not the one that the call
  /// before it left.
  pub each_from_start: bool,
  /// How many edits at most are made one behind the other before anything is
  /// compared: as a list, where the core takes such.
  pub at_once: usize,
}

impl Paper {
  /// Calls on tables of the full sizes, each on what the one before it left.
  pub fn new(start: Start, calls: Vec<Made>) -> Self {
    Self { sizes: Sizes::FULL, start, calls, each_from_start: false, at_once: 1 }
  }

  /// The same, but each call gets the desk of the start.
  pub fn each(start: Start, calls: Vec<Made>) -> Self {
    Self { each_from_start: true, ..Self::new(start, calls) }
  }
}

/// What stands in the memory at first.
#[derive(Debug, Clone)]
pub enum Start {
  /// Tables of junk, which an opening makes a desk.
  Junk { seed: u64 },
  /// A desk made by hand. The seed chooses its memory among all that mean it.
  Desk { desk: DeskData, seed: u64 },
}

impl Start {
  /// The memory, in tables of these sizes.
  pub fn memory(&self, sizes: Sizes) -> Image {
    match self {
      Start::Junk { seed } => Image::junk_in(sizes, Vec::new(), &mut Random::new(*seed)),
      Start::Desk { desk, seed } => {
        let mut random = Random::new(*seed);
        let style = Style::any(&mut random).sized(sizes);
        encode_in(style, desk, &mut random)
      }
    }
  }
}

/// A call. The seed chooses what the call leaves open: the buffer's pattern, its
/// length where it is only long enough, and arguments that are not looked at.
#[derive(Debug, Clone)]
pub struct Made {
  pub call: Call,
  pub seed: u64,
}

impl fmt::Display for Paper {
  fn fmt(&self, out: &mut fmt::Formatter) -> fmt::Result {
    write!(out, "{}", self.start)?;
    if self.sizes != Sizes::FULL {
      writeln!(out, "# tables of {}", self.sizes)?;
    }
    if self.each_from_start {
      writeln!(out, "# each call gets the desk of the start")?;
    }
    if self.at_once > 1 {
      writeln!(out, "# up to {} edits at once", self.at_once)?;
    }
    self.calls.iter().try_for_each(|made| writeln!(out, "{}", made.call))
  }
}

impl fmt::Display for Start {
  fn fmt(&self, out: &mut fmt::Formatter) -> fmt::Result {
    match self {
      Start::Junk { seed } => writeln!(out, "# tables of junk, seed {seed}"),
      Start::Desk { desk, seed } => {
        writeln!(out, "# desk made by hand, memory of seed {seed}")?;
        writeln!(out, "# {}", dump::print(desk))
      }
    }
  }
}
