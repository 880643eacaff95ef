//! `characters [SEED]`: every character, every short sequence of bytes, longer ones, and
//! characters at random, opened and reported by the core and by Rust's own `str` and
//! `char`. It prints how many sources of each kind were accepted and refused; at the first
//! difference it prints the source with both answers and fails.

use std::process::ExitCode;

use differential::{
  characters::{self, Openings},
  program,
};

fn main() -> ExitCode {
  program::seeded("characters", |core, seed| {
    let mut openings = Openings::new(core, seed);
    let compared = characters::all(&mut openings, seed);
    for (kind, counts) in &openings.kinds {
      println!("  {kind}: {counts}");
    }
    compared
  })
}
