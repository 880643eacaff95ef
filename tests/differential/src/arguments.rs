//! The words behind a program's name.

use std::{process::ExitCode, time::Duration};

/// A seed, how many calls or lists are made, and in which time at most.
pub struct Arguments {
  pub seed: u64,
  pub count: u64,
  pub most: Duration,
}

/// `SEED COUNT [SECONDS]`. Other words are told on standard error, with the
/// program's name, and make it fail.
pub fn seed_count_seconds(program: &str) -> Result<Arguments, ExitCode> {
  match numbers()[..] {
    [Some(seed), Some(count)] => Ok(Arguments { seed, count, most: Duration::MAX }),
    [Some(seed), Some(count), Some(seconds)] => {
      Ok(Arguments { seed, count, most: Duration::from_secs(seconds) })
    }
    _ => Err(usage(program, "SEED COUNT [SECONDS]")),
  }
}

/// `[SEED]`, which is 1 where it is left out. Other words as above.
pub fn seed(program: &str) -> Result<u64, ExitCode> {
  match numbers()[..] {
    [] => Ok(1),
    [Some(seed)] => Ok(seed),
    _ => Err(usage(program, "[SEED]")),
  }
}

/// The words as numbers, and none for a word that is no number.
fn numbers() -> Vec<Option<u64>> {
  std::env::args().skip(1).map(|word| word.parse().ok()).collect()
}

fn usage(program: &str, words: &str) -> ExitCode {
  eprintln!("usage: {program} {words}");
  ExitCode::from(2)
}
