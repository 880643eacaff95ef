//! What programs print around a comparison.

use std::{fmt::Display, process::ExitCode, time::Instant};

use crate::{
  Core,
  arguments::{self, Arguments},
  cores::{self, Chosen},
};

/// `PROGRAM [SEED]`: compares with the core of this build. It prints core and seed, and how
/// the comparison ended.
pub fn seeded<Found: Display>(
  program: &str,
  compare: impl FnOnce(&mut Chosen, u64) -> Result<(), Found>,
) -> ExitCode {
  let seed = match arguments::seed(program) {
    Ok(seed) => seed,
    Err(code) => return code,
  };
  let mut core = begun(seed);
  let began = Instant::now();
  let compared = compare(&mut core, seed);
  ended(began, compared)
}

/// `PROGRAM SEED COUNT [SECONDS]`: the same, with what was compared and the difference, if
/// there is one.
pub fn counted(
  program: &str,
  compare: impl FnOnce(&mut Chosen, Arguments) -> (Box<dyn Display>, Option<String>),
) -> ExitCode {
  let arguments = match arguments::seed_count_seconds(program) {
    Ok(arguments) => arguments,
    Err(code) => return code,
  };
  let mut core = begun(arguments.seed);
  let began = Instant::now();
  let (tally, different) = compare(&mut core, arguments);
  print!("{tally}");
  ended(began, different.map_or(Ok(()), Err))
}

/// The core of this build; it is printed, and so is the seed.
fn begun(seed: u64) -> Chosen {
  let core = cores::chosen(seed);
  println!("core: {}", core.name());
  println!("seed: {seed}");
  core
}

/// Prints how long it took and the difference, if there is one, with which the program fails.
pub fn ended(began: Instant, compared: Result<(), impl Display>) -> ExitCode {
  println!("seconds: {:.1}", began.elapsed().as_secs_f64());
  if let Err(found) = compared {
    println!("differences: 1\n\n{found}");
    return ExitCode::FAILURE;
  }
  println!("differences: 0");
  ExitCode::SUCCESS
}
