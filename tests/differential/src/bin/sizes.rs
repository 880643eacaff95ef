//! `sizes SEED COUNT [SECONDS]`: edits on desks in tables of any size, by the inner
//! functions and by the oracle with the limits of those sizes, at least COUNT
//! together, or as many as are made in SECONDS; then damaged memory of other
//! sizes. At the first difference it prints the smallest paper that it finds, or
//! the image, and fails.

use std::{process::ExitCode, time::Instant};

use differential::{
  Core,
  arguments::{Arguments, seed_count_seconds},
  compare::{Compared, compare_on},
  cores,
  damage::{self, Judge},
  papers, program,
};

fn main() -> ExitCode {
  let Arguments { seed, count, most } = match seed_count_seconds("sizes") {
    Ok(arguments) => arguments,
    Err(code) => return code,
  };
  let mut core = cores::chosen_inner(seed);
  println!("core: {}", core.name());
  println!("seed: {seed}");

  println!("papers on tables of any size");
  let began = Instant::now();
  let compared = compare_on(papers::sized::paper, &mut core, seed, count, most);
  let Compared { tally, different } = compared;
  print!("{tally}");
  println!("seconds: {:.1}", began.elapsed().as_secs_f64());
  if let Some((paper, found)) = different {
    println!("differences: 1\n\nThe smallest paper found, which differs at its last call:\n");
    println!("{paper}\n{}", found.what);
    return ExitCode::FAILURE;
  }

  println!("damaged memory of other sizes");
  let began = Instant::now();
  let mut judge = Judge::new(&mut core, seed);
  let judged = damage::of_any_size(&mut judge, seed);
  print!("{}", judge.verdicts);
  program::ended(began, judged)
}
