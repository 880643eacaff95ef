//! `replay`: the file that crates/replay replays (crates/replay/stdin), on
//! standard output.

fn main() {
  print!("{}", oracle::replay::file());
}
