//! Runs the script on standard input: one call per line in, one answer per line
//! out. With `--check`, what holds of every desk is checked at each step.

use std::{
  io::{self, BufRead, BufWriter, Write},
  process::ExitCode,
};

use oracle::{Answer, Call, Limits, Script, check, parse};

fn main() -> ExitCode {
  let arguments: Vec<String> = std::env::args().skip(1).collect();
  let checked = match arguments.iter().map(String::as_str).collect::<Vec<_>>()[..] {
    [] => false,
    ["--check"] => true,
    _ => {
      eprintln!("usage: oracle [--check] < SCRIPT");
      return ExitCode::from(2);
    }
  };
  match run(checked) {
    Ok(()) => ExitCode::SUCCESS,
    Err(message) => {
      eprintln!("oracle: {message}");
      ExitCode::FAILURE
    }
  }
}

fn run(checked: bool) -> Result<(), String> {
  let mut out = BufWriter::new(io::stdout().lock());
  let mut script = Script::new(Limits::FULL);
  for (index, line) in io::stdin().lock().lines().enumerate() {
    let at = |message: String| format!("line {}: {message}", index + 1);
    let line = line.map_err(|error| at(error.to_string()))?;
    if let Some(call) = parse(&line).map_err(at)? {
      let answer = if checked { check::call(&mut script, &call) } else { Ok(script.call(&call)) };
      let answer = answer.map_err(at)?;
      writeln!(out, "{}", answer_line(&call, answer)).map_err(|error| at(error.to_string()))?;
    }
  }
  out.flush().map_err(|error| error.to_string())
}

fn answer_line(call: &Call, answer: Option<Answer>) -> String {
  match answer {
    None => "no desk".to_string(),
    Some(answer) if *call == Call::Dump => String::from_utf8(answer.bytes).unwrap(),
    Some(answer) => answer.to_string(),
  }
}
