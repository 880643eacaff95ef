//! `differential SEED COUNT [SECONDS]`: papers whose answers are written down,
//! then random papers on both sides, at least COUNT calls together, or as many as
//! are made in SECONDS; half as many trims and indents of blanks and line ends; and
//! a tenth as many line counts. At the first difference it prints the smallest
//! paper that it finds and fails.

use std::{
  process::ExitCode,
  time::{Duration, Instant},
};

use differential::{
  Core, Paper, Tally,
  arguments::{Arguments, seed_count_seconds},
  compare::{Compared, compare_on},
  cores, papers,
  run::run,
};

fn main() -> ExitCode {
  let Arguments { seed, count, most } = match seed_count_seconds("differential") {
    Ok(arguments) => arguments,
    Err(code) => return code,
  };
  let mut core = cores::chosen(seed);
  println!("core: {}", core.name());
  println!("seed: {seed}");

  for (paper, numbers) in papers::fixed::papers() {
    let mut tally = Tally::default();
    if let Err(found) = run(&mut core, &paper, &mut tally) {
      println!("differences: 1\n\n{paper}\n{}", found.what);
      return ExitCode::FAILURE;
    }
    let mut written = [0; 16];
    numbers.iter().for_each(|&number| written[number as usize] += 1);
    if tally.passed_over == 0 && tally.numbers != written {
      println!("other numbers than those written down, {numbers:?}:\n\n{paper}");
      return ExitCode::FAILURE;
    }
  }
  println!("papers with written answers: {}", papers::fixed::papers().len());
  let all = random("all calls", papers::paper, &mut core, seed, count, most);
  let blanks = random("blanks and lines", papers::blanks::paper, &mut core, seed, count / 2, most);
  let lines = random("line counts", papers::lines::paper, &mut core, seed, count / 10, most);
  if all && blanks && lines { ExitCode::SUCCESS } else { ExitCode::FAILURE }
}

/// Whether random papers of one kind show no difference.
fn random(
  kind: &str,
  paper: fn(u64) -> Paper,
  core: &mut (impl Core + Clone),
  seed: u64,
  count: u64,
  most: Duration,
) -> bool {
  println!("papers of {kind}");
  let began = Instant::now();
  let Compared { tally, different } = compare_on(paper, core, seed, count, most);
  print!("{tally}");
  println!("seconds: {:.1}", began.elapsed().as_secs_f64());
  match different {
    None => {
      println!("differences: 0");
      true
    }
    Some((paper, found)) => {
      println!("differences: 1\n\nThe smallest paper found, which differs at its last call:\n");
      println!("{paper}\n{}", found.what);
      false
    }
  }
}
