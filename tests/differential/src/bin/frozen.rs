//! `frozen SEED COUNT [SECONDS]`: sittings with frozen parts: every range of small desks, 20
//! beside every other number, records and their kept desks, and COUNT random sittings, or as
//! many as are run in SECONDS, on the core and by the plain reading. It prints how often each
//! case was met. At the first difference it prints the smallest sitting that it finds and
//! fails.

use std::process::ExitCode;

use differential::{arguments::Arguments, frozen::compare, program};

fn main() -> ExitCode {
  program::counted("frozen", |core, Arguments { seed, count, most }| {
    compare(core, seed, count, most).printed()
  })
}
