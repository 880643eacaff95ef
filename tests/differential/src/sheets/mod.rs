//! Sheets (document 02's L1) on a core and by a plain reading of the request: the
//! rules broken one by one in every place, what is lent beside a sheet, and random
//! sheets; and the program's output for many of them.

pub mod broken;
pub mod fields;
mod handed;
pub mod lent;
mod limits;
mod program;
mod random_sheets;
pub mod reading;
pub mod run;
mod shrink;
mod tally;

use std::time::{Duration, Instant};

pub use handed::Handed;
use oracle::random::Random;
pub use program::Program;
pub use random_sheets::{call_changed, handed as random};
pub use tally::Tally;

use crate::Core;

/// What was compared, and the smallest sheet found on which the sides differ, if one
/// was, with the difference.
pub struct Compared {
  pub tally: Tally,
  pub different: Option<(Handed, String)>,
}

/// Compares all sheets of `chosen` and then random ones: until there were so many of
/// them, time is up, or the sides differ. The program, where there is one, gets those
/// that are for it.
pub fn compare<C: Core + Clone>(
  core: &mut C,
  program: Option<&Program>,
  seed: u64,
  count: u64,
  most: Duration,
) -> Compared {
  let began = Instant::now();
  let mut seeds = Random::new(seed);
  let mut tally = Tally::default();
  let chosen = chosen(&mut seeds).into_iter();
  let at_random = (0..count).map(|_| random(seeds.number()));
  for handed in chosen.chain(at_random.take_while(|_| began.elapsed() < most)) {
    if let Err(found) = check(core, program, &handed, &mut tally) {
      let differs =
        |smaller: &Handed| check(&mut core.clone(), program, smaller, &mut Tally::default()).err();
      return Compared { tally, different: Some(shrink::shrink(handed, found, differs)) };
    }
  }
  Compared { tally, different: None }
}

/// Every rule broken in every place, the limits of a sheet, and what is lent.
pub fn chosen(seeds: &mut Random) -> Vec<Handed> {
  let sheets = broken::all().into_iter().chain(limits::all());
  let mut all: Vec<Handed> =
    sheets.map(|(tries, sheet)| Handed::new(tries, sheet, seeds.number())).collect();
  all.extend(lent::all(seeds));
  all
}

/// Runs the sheet on the core and, if it is for it, through the program. What differs,
/// if anything does.
fn check(
  core: &mut impl Core,
  program: Option<&Program>,
  handed: &Handed,
  tally: &mut Tally,
) -> Result<(), String> {
  run::run(core, handed, tally)?;
  if let Some(program) = program.filter(|_| handed.printed) {
    program.check(&handed.sheet, handed.seed)?;
    tally.printed += 1;
  }
  Ok(())
}
