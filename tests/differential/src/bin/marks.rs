//! `marks SEED COUNT [SECONDS]`: the marks of filed calls, the readings of entries and the
//! total, at their bounds, beside records that are none and in what filing and withdrawing
//! make of them, and COUNT random sittings, or as many as are run in SECONDS, on the core and
//! by the plain reading; a member's calls beside two records that differ in nothing but marks.
//! It prints how often each case was met. At the first difference it prints the smallest
//! sitting that it finds and fails.

use std::process::ExitCode;

use differential::{arguments::Arguments, marks::compare, program};

fn main() -> ExitCode {
  program::counted("marks", |core, Arguments { seed, count, most }| {
    compare(core, seed, count, most).printed()
  })
}
