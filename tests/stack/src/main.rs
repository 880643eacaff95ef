//! `stack [SEED [COUNT]]`: the most stack that the calls of each group used, on
//! chosen desks, on random papers of COUNT calls, on sheets, in sittings, in sittings with
//! frozen parts and with marks, and in joins. It fails where a call used more than
//! include/magic_string.h says of its kind, or did not answer as the oracle.

mod chosen;
mod measured;
mod painted;

use std::process::ExitCode;

use differential::{
  Core, Paper, Tally, cores, frozen, joins, marks, papers,
  run::run,
  sheets,
  sittings::{self, Sitting},
};
use measured::{GROUPS, Measured};
use oracle::random::Random;

fn main() -> ExitCode {
  let arguments: Vec<Option<u64>> =
    std::env::args().skip(1).map(|word| word.parse().ok()).collect();
  let (seed, count) = match arguments[..] {
    [] => (1, 20_000),
    [Some(seed)] => (seed, 20_000),
    [Some(seed), Some(count)] => (seed, count),
    _ => {
      eprintln!("usage: stack [SEED [COUNT]]");
      return ExitCode::from(2);
    }
  };
  assert!(painted::is_right(), "the stack is not measured rightly");
  let mut core = Measured::new(cores::chosen(seed));
  println!("core: {}", core.name());
  println!("seed: {seed}");
  let made = chosen::all(&mut core, seed)
    .and_then(|()| random(&mut core, papers::paper, seed, count))
    .and_then(|()| random(&mut core, papers::blanks::paper, seed, count / 4))
    .and_then(|()| random_sheets(&mut core, seed, count / 10))
    .and_then(|()| random_sittings(&mut core, sittings::random, seed, count / 20))
    .and_then(|()| random_sittings(&mut core, frozen::random, seed, count / 20))
    .and_then(|()| random_sittings(&mut core, marks::random, seed, count / 20))
    .and_then(|()| all_joins(&mut core, seed, count / 20));
  if let Err(what) = made {
    println!("{what}");
    return ExitCode::FAILURE;
  }

  println!("bytes of stack at most, with the caller's frame:");
  let limits = limits();
  let mut above = 0;
  for (group, kind) in GROUPS {
    let most = core.most.entry(group).or_default();
    let call = if group == most.call { String::new() } else { format!(" ({})", most.call) };
    let is_above = most.bytes > limits[kind] * 1_000 || most.calls == 0;
    let mark = if is_above { ": TOO MUCH" } else { "" };
    let limit = limits[kind];
    println!("{:>8}  {group}{call}, {} calls, up to {limit} kB{mark}", most.bytes, most.calls);
    above += is_above as u64;
  }
  if above > 0 {
    println!("groups above what the header says, or without a call: {above}");
    return ExitCode::FAILURE;
  }
  println!("all within what the header says");
  ExitCode::SUCCESS
}

/// What the header says of an edit, of a join, and of the check and a report, in kB of 1,000
/// bytes.
fn limits() -> [usize; 3] {
  let header = include_str!("../../../include/magic_string.h");
  let (_, said) = header.split_once("Its stack, measured:").expect("the header's sentence");
  let (said, _) = said.split_once('.').expect("its end");
  let words: Vec<&str> = said.split_whitespace().collect();
  let figures: Vec<usize> = (words.windows(2))
    .filter(|pair| pair[1].starts_with("kB"))
    .map(|pair| pair[0].parse().expect("a number before kB"))
    .collect();
  figures.try_into().expect("three figures")
}

/// Random papers of one kind.
fn random(
  core: &mut impl Core,
  paper: fn(u64) -> Paper,
  seed: u64,
  count: u64,
) -> Result<(), String> {
  let mut seeds = Random::new(seed);
  let mut tally = Tally::default();
  while tally.calls < count {
    let paper = paper(seeds.number());
    run(core, &paper, &mut tally).map_err(|found| format!("{paper}\n{}", found.what))?;
  }
  Ok(())
}

/// Random sheets: some of them lead their calls to each limit of a desk.
fn random_sheets(core: &mut impl Core, seed: u64, count: u64) -> Result<(), String> {
  let mut seeds = Random::new(seed);
  let mut tally = sheets::Tally::default();
  (0..count).try_for_each(|_| {
    let handed = sheets::random(seeds.number());
    sheets::run::run(core, &handed, &mut tally).map_err(|what| format!("{handed}\n{what}"))
  })
}

/// Random sittings of one kind: some of them lead the calls that are filed, and those that a
/// withdrawal makes anew, to each limit.
fn random_sittings<C: Core + Clone>(
  core: &mut C,
  sitting: fn(u64) -> Sitting,
  seed: u64,
  count: u64,
) -> Result<(), String> {
  let mut seeds = Random::new(seed);
  let mut tally = sittings::Tally::default();
  (0..count).try_for_each(|_| {
    let sitting = sitting(seeds.number());
    let ran = sittings::run::run(core, &sitting, &mut tally);
    ran.map_err(|found| format!("{sitting}\n{}", found.what))
  })
}

/// The chosen joins, which try calls at each limit of a desk, and random ones.
fn all_joins(core: &mut impl Core, seed: u64, count: u64) -> Result<(), String> {
  let mut seeds = Random::new(seed);
  let mut tally = joins::Tally::default();
  let at_random = (0..count).map(|_| joins::random(seeds.number()));
  joins::chosen(seed).chain(at_random).try_for_each(|pair| {
    joins::run::run(core, &pair, &mut tally).map_err(|what| format!("{pair}\n{what}"))
  })
}
