//! A sheet that is handed in, and what is lent beside it.

use std::fmt;

use oracle::{Call, hex, random::Random};

use super::reading;
use crate::{Image, image, layout::*, made};

#[derive(Debug, Clone)]
pub struct Handed {
  /// What it is there to try.
  pub tries: &'static str,
  pub sheet: Vec<u8>,
  /// How many answers there is room for.
  pub room: usize,
  /// The lengths of chunks, pieces and store.
  pub lengths: [usize; 3],
  /// Whether the program gets it too.
  pub printed: bool,
  /// Chooses what the tables hold before, and the answers' bytes and place.
  pub seed: u64,
}

/// The lengths of a desk's tables.
pub const FULL: [usize; 3] = [CHUNK_WORDS, PIECE_WORDS, STORE_BYTES];

impl Handed {
  /// With tables of the full lengths and room for every answer; for the program too.
  pub fn new(tries: &'static str, sheet: Vec<u8>, seed: u64) -> Self {
    Self { tries, sheet, room: reading::MOST_RECORDS, lengths: FULL, printed: true, seed }
  }

  pub fn full_tables(&self) -> bool {
    self.lengths == FULL
  }

  /// What is lent: the sheet, and tables with junk or another desk in them.
  pub fn memory(&self, random: &mut Random) -> Image {
    let mut image = match random.below(3) {
      0 => image::encode(&made::desk(random), random),
      _ => Image::junk(Vec::new(), random),
    };
    let [chunks, pieces, store] = self.lengths;
    image.source.clone_from(&self.sheet);
    image.chunks.resize(chunks, 0);
    image.pieces.resize(pieces, 0);
    image.store.resize(store, 0);
    image
  }
}

/// The sheet in hexadecimal, and as calls where it keeps the rules.
impl fmt::Display for Handed {
  fn fmt(&self, out: &mut fmt::Formatter) -> fmt::Result {
    let [chunks, pieces, store] = self.lengths;
    writeln!(out, "# {}, seed {}", self.tries, self.seed)?;
    writeln!(out, "# tables of {chunks}, {pieces} and {store}, room for {} answers", self.room)?;
    writeln!(out, "# the sheet, {} bytes\n{}", self.sheet.len(), hex::encode(&self.sheet))?;
    let Some(sheet) = reading::read(&self.sheet) else {
      return writeln!(out, "# it breaks the rules");
    };
    writeln!(out, "# as calls\n{}", Call::Open { source: sheet.source })?;
    sheet.records.iter().try_for_each(|(_, call)| writeln!(out, "{call}"))
  }
}
