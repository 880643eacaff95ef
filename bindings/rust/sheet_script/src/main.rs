//! `sheet_script to-sheet [FILE]` makes a sheet of a script, `sheet_script to-script
//! [FILE]` a script of a sheet; `to-list` and `list-to-script` do so for a list, which is
//! a sheet's calls without a source. They read FILE, or standard input without one, and
//! write to standard output. What is wrong goes to standard error, and the status is
//! then 1.

use std::{
  env,
  error::Error,
  fs,
  io::{self, Read, Write},
  path::{Path, PathBuf},
  process::ExitCode,
};

use sheet_script::{list_to_script, to_list, to_script, to_sheet};

const USAGE: &str = "\
usage: sheet_script to-sheet [FILE]
       sheet_script to-script [FILE]
       sheet_script to-list [FILE]
       sheet_script list-to-script [FILE]";

/// What a command makes of the bytes that it read.
type Turned = Result<Vec<u8>, Box<dyn Error>>;

fn main() -> ExitCode {
  match run() {
    Ok(()) => ExitCode::SUCCESS,
    Err(message) => {
      eprintln!("{message}");
      ExitCode::FAILURE
    }
  }
}

fn run() -> Result<(), String> {
  let arguments: Vec<PathBuf> = env::args_os().skip(1).map(PathBuf::from).collect();
  let (command, file) = match &arguments[..] {
    [command] => (command, None),
    [command, file] => (command, Some(file.as_path())),
    _ => return Err(USAGE.to_string()),
  };
  let turn: fn(&[u8]) -> Turned = match command.to_str() {
    Some("to-sheet") => |bytes| Ok(to_sheet(bytes)?),
    Some("to-script") => |bytes| Ok(to_script(bytes)?.into_bytes()),
    Some("to-list") => |bytes| Ok(to_list(bytes)?),
    Some("list-to-script") => |bytes| Ok(list_to_script(bytes)?.into_bytes()),
    _ => return Err(USAGE.to_string()),
  };
  let named = |what: String| match file {
    Some(file) => format!("{}: {what}", file.display()),
    None => what,
  };
  let bytes = read(file).map_err(|error| named(error.to_string()))?;
  let turned = turn(&bytes).map_err(|error| named(error.to_string()))?;
  write(&turned).map_err(|error| error.to_string())
}

/// The file's bytes, or those of standard input.
fn read(file: Option<&Path>) -> io::Result<Vec<u8>> {
  let Some(file) = file else {
    let mut bytes = Vec::new();
    io::stdin().read_to_end(&mut bytes)?;
    return Ok(bytes);
  };
  fs::read(file)
}

fn write(bytes: &[u8]) -> io::Result<()> {
  let mut out = io::stdout();
  out.write_all(bytes)?;
  out.flush()
}
