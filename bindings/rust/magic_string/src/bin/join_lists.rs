//! `join_lists SHEET FIRST SECOND`: whether two lists of calls join on the desk that a sheet
//! leaves, and if not, which check of the any-order rule (docs/ANY-ORDER.md) fails for which
//! calls. A file that ends in .script is a readable one (crate `sheet_script`); any other is
//! the bytes of a sheet or of a list.
//!
//! The status is 0 if they join, 1 if they do not, and 2 if there is no such desk, or if a
//! file cannot be read or is no script; what is wrong goes to standard error then.

use std::{
  env,
  error::Error,
  fs,
  path::{Path, PathBuf},
  process::ExitCode,
};

use magic_string::{MagicString, Refusal, SheetRun, premises::broken};
use sheet_script::{ScriptError, to_list, to_sheet};

const USAGE: &str = "usage: join_lists SHEET FIRST SECOND";

fn main() -> ExitCode {
  let files: Vec<PathBuf> = env::args_os().skip(1).map(PathBuf::from).collect();
  match run(&files) {
    Ok(true) => ExitCode::SUCCESS,
    Ok(false) => ExitCode::FAILURE,
    Err(message) => {
      eprintln!("{message}");
      ExitCode::from(2)
    }
  }
}

/// Tries the lists, and tells whether they join.
fn run(files: &[PathBuf]) -> Result<bool, String> {
  let [sheet, first, second] = files else { return Err(USAGE.to_string()) };
  let named = |file: &Path, error: &dyn Error| format!("{}: {error}", file.display());
  let read = |file: &Path, of_script| bytes(file, of_script).map_err(|error| named(file, &*error));
  let run = MagicString::run_sheet(&read(sheet, to_sheet)?);
  let SheetRun { desk, answers } = run.map_err(|refusal| named(sheet, &refusal))?;
  let (first, second) = (read(first, to_list)?, read(second, to_list)?);
  tell_refused(&answers);
  Ok(tell(desk, &first, &second))
}

/// The bytes of a file, or those that its script makes.
fn bytes(
  file: &Path,
  of_script: fn(&[u8]) -> Result<Vec<u8>, ScriptError>,
) -> Result<Vec<u8>, Box<dyn Error>> {
  let content = fs::read(file)?;
  match file.extension().is_some_and(|extension| extension == "script") {
    true => Ok(of_script(&content)?),
    false => Ok(content),
  }
}

/// The calls of the sheet that were refused: the desk is without them.
fn tell_refused(answers: &[Result<(), Refusal>]) {
  for (number, answer) in (1..).zip(answers) {
    if let Err(refusal) = answer {
      println!("Call {number} of the sheet is refused with {}: {refusal}", refusal.number());
    }
  }
}

/// Joins the lists and prints the text, with nothing behind it; or says what keeps them from
/// being joined.
fn tell(mut desk: MagicString, first: &[u8], second: &[u8]) -> bool {
  let broken = broken(&desk, first, second);
  match desk.join(first, second) {
    Ok(joined) => {
      print!("The lists join. Cuts: {}. The text:\n{joined}", joined.cuts());
      true
    }
    Err(refusal) => {
      println!("The lists do not join, {}: {refusal}", refusal.number());
      broken.iter().for_each(|broken| println!("  {broken}"));
      false
    }
  }
}
