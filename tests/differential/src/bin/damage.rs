//! `damage [SEED]`: damaged memory on both sides. It prints how many images were
//! judged well formed and how many not, by kind of damage; at the first image on
//! which the core is wrong it prints that and fails.

use std::process::ExitCode;

use differential::{
  damage::{self, Judge},
  program,
};

fn main() -> ExitCode {
  program::seeded("damage", |core, seed| {
    let mut judge = Judge::new(core, seed);
    let judged = damage::all(&mut judge, seed);
    print!("{}", judge.verdicts);
    judged
  })
}
