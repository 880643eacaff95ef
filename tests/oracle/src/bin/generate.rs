//! `generate SEED COUNT`: a random script of COUNT calls on standard output, the
//! same for the same seed.

use std::{
  io::{self, BufWriter, Write},
  process::ExitCode,
};

fn main() -> ExitCode {
  let arguments: Vec<Option<u64>> =
    std::env::args().skip(1).map(|word| word.parse().ok()).collect();
  let [Some(seed), Some(count)] = arguments[..] else {
    eprintln!("usage: generate SEED COUNT");
    return ExitCode::from(2);
  };
  match print(seed, count as usize) {
    Ok(()) => ExitCode::SUCCESS,
    Err(error) => {
      eprintln!("generate: {error}");
      ExitCode::FAILURE
    }
  }
}

fn print(seed: u64, count: usize) -> io::Result<()> {
  let mut out = BufWriter::new(io::stdout().lock());
  for call in oracle::generate::generate(seed, count) {
    writeln!(out, "{call}")?;
  }
  out.flush()
}
