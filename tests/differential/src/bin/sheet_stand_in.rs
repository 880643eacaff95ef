//! `sheet_stand_in [FAULT]`: prints for the sheet on standard input what the plain
//! reading says; with a fault, it is wrong in that way. It stands in for the sheet
//! program where the comparison itself is tested.

use std::{
  env,
  io::{self, Read, Write},
  process::ExitCode,
};

use differential::sheets::reading::{MOST_RECORDS, MOST_SHEET, printed, run};

fn main() -> io::Result<ExitCode> {
  let fault = env::args().nth(1).unwrap_or_default();
  let input = read(&fault)?;
  let mut output = printed(&input);
  let refused = run(&input, true, MOST_RECORDS).is_err();
  match fault.as_str() {
    "a line feed behind the text" if !refused => output.push(b'\n'),
    "no line feed behind a refusal" if refused => _ = output.pop(),
    "a refusal behind a line" if refused => output.splice(..0, *b"1 0\n").for_each(drop),
    _ => {}
  }
  io::stdout().write_all(&output)?;
  let fails = fault == "a status for a refusal" && refused;
  Ok(if fails { ExitCode::FAILURE } else { ExitCode::SUCCESS })
}

/// As many bytes of standard input as are looked at.
fn read(fault: &str) -> io::Result<Vec<u8>> {
  let mut input = Vec::new();
  match fault {
    "one read" => {
      input.resize(MOST_SHEET + 1, 0);
      let len = io::stdin().read(&mut input)?;
      input.truncate(len);
    }
    "a long input is cut" => _ = io::stdin().take(MOST_SHEET as u64).read_to_end(&mut input)?,
    _ => _ = io::stdin().take(MOST_SHEET as u64 + 1).read_to_end(&mut input)?,
  }
  Ok(input)
}
