//! `sheets SEED COUNT [SECONDS]`: sheets with each rule broken in each place, and
//! COUNT random ones, or as many as are run in SECONDS, on the core and by the plain
//! reading; many of them through the program too that SHEET_PROGRAM names, if one is
//! named. At the first difference it prints the smallest sheet that it finds and fails.

use std::process::ExitCode;

use differential::{
  arguments::Arguments,
  program,
  sheets::{Compared, Program, compare},
};

fn main() -> ExitCode {
  program::counted("sheets", |core, Arguments { seed, count, most }| {
    let Compared { tally, different } = compare(core, Program::named().as_ref(), seed, count, most);
    let found =
      different.map(|(handed, found)| format!("The smallest sheet found:\n\n{handed}\n{found}"));
    (Box::new(tally), found)
  })
}
