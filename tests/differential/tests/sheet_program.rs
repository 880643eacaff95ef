//! The comparison of the sheet program: a program that is right is found so, and
//! programs that are wrong in one way are told.

use std::time::Duration;

use differential::{
  cores::StandIn,
  sheets::{Compared, Program, compare},
};

fn compared(arguments: &[&str]) -> Compared {
  let program = Program::new(env!("CARGO_BIN_EXE_sheet_stand_in"), arguments);
  compare(&mut StandIn::new(1), Some(&program), 1, 400, Duration::MAX)
}

#[test]
fn a_right_program_does_not_differ() {
  let Compared { tally, different } = compared(&[]);
  if let Some((handed, found)) = different {
    panic!("{handed}{found}");
  }
  assert!(tally.printed > 2_000, "the program got {} sheets", tally.printed);
}

/// A fault, and the most bytes of the smallest sheet that tells it.
const FAULTS: [(&str, usize); 6] = [
  ("a line feed behind the text", 3),
  ("no line feed behind a refusal", 5),
  ("a refusal behind a line", 5),
  ("a status for a refusal", 5),
  ("one read", 60_000),
  ("a long input is cut", 60_000),
];

#[test]
fn wrong_programs_are_told() {
  for (fault, most) in FAULTS {
    let (handed, found) =
      compared(&[fault]).different.unwrap_or_else(|| panic!("not told: {fault}"));
    println!("{fault}: {} bytes", handed.sheet.len());
    assert!(found.starts_with("the program "), "{fault}: {found}");
    assert!(handed.sheet.len() <= most, "{fault}\n{handed}{found}");
  }
}

#[test]
fn a_program_that_is_not_there_is_told() {
  let program = Program::new("no/such/program", &[]);
  assert!(program.check(b"", 1).is_err());
}
