//! A pair of lists, and the desk on which they are joined.

use std::fmt;

use oracle::{Call, Desk, Limits, random::Random};

use super::Lists;
use crate::{Core, Image, any_order::Start, sittings::Harm};

#[derive(Debug, Clone)]
pub struct Pair {
  /// What it is there to try.
  pub tries: &'static str,
  pub start: Start,
  /// What makes the desk none, if anything does.
  pub harm: Option<Harm>,
  pub lists: Lists,
  /// Chooses what the memory leaves open, and places.
  pub seed: u64,
}

impl Pair {
  pub fn new(tries: &'static str, start: Start, lists: Lists) -> Self {
    Self { tries, start, harm: None, lists, seed: 0 }
  }

  /// On a fresh desk over this source.
  pub fn fresh(tries: &'static str, source: &str, lists: Lists) -> Self {
    let start = Start::Opened { source: source.as_bytes().to_vec(), calls: Vec::new() };
    Self::new(tries, start, lists)
  }

  /// On a desk that these calls bring into use.
  pub fn in_use(tries: &'static str, source: &str, calls: &[Call], lists: Lists) -> Self {
    let start = Start::Opened { source: source.as_bytes().to_vec(), calls: calls.to_vec() };
    Self::new(tries, start, lists)
  }

  /// The same with other memory.
  pub fn seeded(self, seeds: &mut Random) -> Self {
    Self { seed: seeds.number(), ..self }
  }

  /// The desk before it is harmed.
  pub fn desk(&self) -> Desk {
    Desk::build(Limits::FULL, &self.start.desk())
  }

  /// What is lent: memory of the desk, harmed where it is.
  pub fn memory(&self, core: &mut impl Core, seed: u64) -> Result<Image, String> {
    let mut image = self.start.memory(core, seed)?;
    if let Some(Harm { harm, .. }) = self.harm {
      harm(&mut image);
    }
    Ok(image)
  }
}

impl fmt::Display for Pair {
  fn fmt(&self, out: &mut fmt::Formatter) -> fmt::Result {
    writeln!(out, "# {}, seed {}", self.tries, self.seed)?;
    write!(out, "{}", self.start)?;
    if let Some(Harm { name, .. }) = self.harm {
      writeln!(out, "# no desk: {name}")?;
    }
    write!(out, "{}", self.lists)
  }
}
