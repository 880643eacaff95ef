//! A sitting: a desk, a list of edits on it, orders of the list, and later calls.

use std::fmt;

use oracle::{Call, Desk, DeskData, Limits, apply, dump, random::Random};

use super::Later;
use crate::{Core, Image, Unseen, image};

#[derive(Debug, Clone)]
pub struct Sitting {
  pub start: Start,
  pub list: Vec<Call>,
  /// Each order has the places of the list, each once.
  pub orders: Vec<Vec<usize>>,
  pub later: Vec<Later>,
  /// Chooses what the memory of a desk leaves open, and the buffers' bytes.
  pub seed: u64,
}

/// Where the desk comes from.
#[derive(Debug, Clone)]
pub enum Start {
  /// Opened and brought into use by calls, which the core makes itself.
  Opened { source: Vec<u8>, calls: Vec<Call> },
  /// Made by hand: each order has memory of its own for it.
  Made(DeskData),
}

impl Start {
  /// The calls behind an opening.
  pub fn calls(&self) -> &[Call] {
    if let Start::Opened { calls, .. } = self { calls } else { &[] }
  }

  /// The desk, by the oracle.
  pub fn desk(&self) -> DeskData {
    match self {
      Start::Made(desk) => desk.clone(),
      Start::Opened { source, calls } => {
        let mut desk = Desk::open(Limits::FULL, source).expect("a source that is opened");
        calls.iter().for_each(|call| {
          apply(&mut desk, call);
        });
        desk.data()
      }
    }
  }

  /// Memory of the desk, by the core where it is opened. The seed chooses what is left
  /// open.
  pub fn memory(&self, core: &mut impl Core, seed: u64) -> Result<Image, String> {
    let random = &mut Random::new(seed);
    let image = match self {
      Start::Made(desk) => image::encode(desk, random),
      Start::Opened { source, calls } => {
        let mut image = Image::junk(source.clone(), random);
        let open = Call::Open { source: source.clone() };
        for call in [&open].into_iter().chain(calls) {
          core.call(&mut image.lend(), call, &Unseen::PLAIN, &mut []);
        }
        image
      }
    };
    image.check_desk(&self.desk()).map_err(|what| format!("at the start, {what}"))?;
    Ok(image)
  }
}

impl fmt::Display for Start {
  fn fmt(&self, out: &mut fmt::Formatter) -> fmt::Result {
    match self {
      Start::Made(desk) => writeln!(out, "# {}", dump::print(desk)),
      Start::Opened { source, calls } => {
        writeln!(out, "{}", Call::Open { source: source.clone() })?;
        calls.iter().try_for_each(|call| writeln!(out, "{call}"))
      }
    }
  }
}

impl fmt::Display for Sitting {
  fn fmt(&self, out: &mut fmt::Formatter) -> fmt::Result {
    writeln!(out, "# the desk, seed {}", self.seed)?;
    write!(out, "{}", self.start)?;
    writeln!(out, "# the list")?;
    self.list.iter().try_for_each(|call| writeln!(out, "{call}"))?;
    writeln!(out, "# later calls")?;
    self.later.iter().try_for_each(|later| writeln!(out, "{}", later.asked))
  }
}
