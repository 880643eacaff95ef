//! The sheet program, fed through standard input.

use std::{
  env,
  ffi::OsString,
  io::{self, Write},
  process::{ChildStdin, Command, Output, Stdio},
  thread,
  time::Duration,
};

use oracle::random::Random;

use super::reading;

/// One input in so many is written in parts, with a pause behind each.
const IN_PARTS: usize = 40;
const PAUSE: Duration = Duration::from_millis(2);

#[derive(Debug, Clone)]
pub struct Program {
  path: OsString,
  arguments: Vec<String>,
}

impl Program {
  pub fn new(path: impl Into<OsString>, arguments: &[&str]) -> Self {
    let arguments = arguments.iter().map(|word| word.to_string()).collect();
    Self { path: path.into(), arguments }
  }

  /// The one that SHEET_PROGRAM names, unless that is unset or `none`.
  pub fn named() -> Option<Self> {
    let path = env::var_os("SHEET_PROGRAM").filter(|path| path != "none")?;
    Some(Self::new(path, &[]))
  }

  /// The program prints for this input what it must, and ends with status 0. The seed
  /// chooses whether it gets the input in parts.
  pub fn check(&self, input: &[u8], seed: u64) -> Result<(), String> {
    let random = &mut Random::new(seed);
    let parts = if random.one_in(IN_PARTS) { random.between(2, 9) } else { 1 };
    let output = self.output(input, parts).map_err(|error| format!("the program: {error}"))?;
    if output.status.code() != Some(0) {
      return Err(format!("the program ends with {}", output.status));
    }
    let expected = reading::printed(input);
    if output.stdout != expected {
      let [printed, expected] = [&output.stdout, &expected].map(|text| shown(text));
      return Err(format!("the program prints {printed}\n  and not {expected}"));
    }
    Ok(())
  }

  fn output(&self, input: &[u8], parts: usize) -> io::Result<Output> {
    let mut command = Command::new(&self.path);
    command.args(&self.arguments).stdin(Stdio::piped()).stdout(Stdio::piped());
    let mut child = command.spawn()?;
    let stdin = child.stdin.take().expect("a pipe");
    // Beside the reading, so that neither side waits for the other.
    thread::scope(|scope| {
      let written = scope.spawn(|| write(stdin, input, parts));
      let output = child.wait_with_output()?;
      written.join().expect("the writer does not panic")?;
      Ok(output)
    })
  }
}

/// A program that has enough may end before it has read all.
fn write(mut stdin: ChildStdin, input: &[u8], parts: usize) -> io::Result<()> {
  for part in input.chunks(input.len().div_ceil(parts).max(1)) {
    match stdin.write_all(part) {
      Err(error) if error.kind() == io::ErrorKind::BrokenPipe => return Ok(()),
      written => written?,
    }
    if parts > 1 {
      thread::sleep(PAUSE);
    }
  }
  Ok(())
}

/// The front of an output.
fn shown(output: &[u8]) -> String {
  const MOST: usize = 400;
  let text = String::from_utf8_lossy(&output[..output.len().min(MOST)]);
  let more =
    if output.len() > MOST { format!(".., {} bytes", output.len()) } else { String::new() };
  format!("{text:?}{more}")
}
