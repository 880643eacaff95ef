//! `joins SEED COUNT [SECONDS]`: pairs of lists with each premise of the any-order rule and
//! each rule of a list broken, at the bounds of lists and of space, and COUNT random pairs,
//! or as many as are joined in SECONDS, on the core in both orders and by the plain reading.
//! At the first difference it prints the smallest pair that it finds and fails.

use std::process::ExitCode;

use differential::{
  arguments::Arguments,
  joins::{Compared, compare},
  program,
};

fn main() -> ExitCode {
  program::counted("joins", |core, Arguments { seed, count, most }| {
    let Compared { tally, different } = compare(core, seed, count, most);
    let found =
      different.map(|(pair, found)| format!("The smallest pair found:\n\n{pair}\n{found}"));
    (Box::new(tally), found)
  })
}
