//! `sittings SEED COUNT [SECONDS]`: calls filed and withdrawn at the bounds of a record,
//! with broken calls, damaged records and damaged desks, and COUNT random sittings, or as
//! many as are run in SECONDS, on the core and by the plain reading. At the first
//! difference it prints the smallest sitting that it finds and fails.

use std::process::ExitCode;

use differential::{arguments::Arguments, program, sittings::compare};

fn main() -> ExitCode {
  program::counted("sittings", |core, Arguments { seed, count, most }| {
    compare(core, seed, count, most).printed()
  })
}
