//! `any_order SEED COUNT [SECONDS]`: COUNT random lists of edits that pass the
//! checks of docs/ANY-ORDER.md, or as many as are run in SECONDS, each in all its
//! orders or in some, with later calls after each order. At the first order that
//! differs it prints the smallest list that it finds and fails. Then, for each
//! check, lists that fail it alone, until the orders of one differ.

use std::{
  process::ExitCode,
  time::{Duration, Instant},
};

use differential::{
  Core,
  any_order::{CHECKS, Compared, UNTOLD, compare},
  arguments::{Arguments, seed_count_seconds},
  cores,
};

/// So many lists that fail a check are run at most.
const FAILING: u64 = 2_000;

fn main() -> ExitCode {
  let Arguments { seed, count, most } = match seed_count_seconds("any_order") {
    Ok(arguments) => arguments,
    Err(code) => return code,
  };
  let mut core = cores::chosen(seed);
  println!("core: {}", core.name());
  println!("seed: {seed}");

  println!("orders of lists that pass every check");
  let began = Instant::now();
  let Compared { tally, different } = compare(&mut core, None, seed, count, most);
  print!("{tally}");
  println!("seconds: {:.1}", began.elapsed().as_secs_f64());
  if let Some((sitting, found)) = different {
    println!("differences: 1\n\nThe smallest sitting found:\n\n{sitting}");
    println!("# the order {:?}\n{}", found.order, found.what);
    return ExitCode::FAILURE;
  }
  println!("differences: 0");

  println!("orders of lists that fail one check");
  let mut right = true;
  for check in CHECKS {
    let Compared { tally, different } =
      compare(&mut core, Some(check), seed, FAILING, Duration::MAX);
    let told = different.is_some();
    println!("  check {check}: {}", if told { "told apart" } else { "the same" });
    if told == UNTOLD.contains(&check) && tally.passed_over == 0 {
      println!("not as it should be, in {} lists", tally.lists);
      right = false;
    }
  }
  if right { ExitCode::SUCCESS } else { ExitCode::FAILURE }
}
