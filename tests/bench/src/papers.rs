//! Whole papers: an opening, 200 edits, and the output.

use differential::{Core, Image, Unseen};
use oracle::{
  Call::{self, *},
  Desk, Limits, SETTINGS, apply,
  random::Random,
};

use crate::{
  calls::ROOM,
  desks,
  rust::{anew, see},
  timing::least,
};

pub const EDITS: usize = 200;

pub fn print(core: &mut impl Core) {
  println!("\na whole paper: open, {EDITS} edits, to_string");
  print!("{:<30} {:>10} {:>10} {:>8}", "", "Rust us", "us", "ratio");
  println!(" {:>10} {:>8}", "less check", "ratio");
  for source in [2_048, 16_384] {
    let source = desks::edited(source, 1).source;
    let fresh = Desk::open(Limits::FULL, source.as_bytes()).expect("a source within the limits");
    let calls = edits(&fresh, 7);
    let theirs = rust(&source, &calls) / 1_000.0;
    let ours = time(core, &source, &calls) / 1_000.0;
    let less = ours - checks(core, &source, &calls) / 1_000.0;
    let name = format!("source of {} bytes", source.len());
    print!("{name:<30} {theirs:>10.1} {ours:>10.1} {:>8.2}", ours / theirs);
    println!(" {less:>10.1} {:>8.2}", less / theirs);
  }
}

/// Edits at random that are accepted, one after the other.
pub fn edits(desk: &Desk, seed: u64) -> Vec<Call> {
  let (mut desk, mut random) = (desk.clone(), Random::new(seed));
  let source = desk.magic_string().source().to_string();
  let mut calls = Vec::new();
  while calls.len() < EDITS {
    let at = random.below(source.len()) as u32;
    let (start, end) = (at, (at + random.between(1, 12) as u32).min(source.len() as u32));
    let text = b"inserted"[..random.between(1, 8)].to_vec();
    let call = match random.below(10) {
      0..=3 => UpdateWith { start, end, overwrite: 1, text },
      4 => Remove { start, end },
      choice @ 5..=8 => Insert { at, text, setting: SETTINGS[choice - 5] },
      _ => Relocate { start, end, to: random.below(source.len()) as u32 },
    };
    if apply(&mut desk, &call).number == 0 {
      calls.push(call);
    }
  }
  calls
}

pub fn rust(source: &str, calls: &[Call]) -> f64 {
  anew(source, calls, |desk| see(desk.to_string()))
}

fn time(core: &mut impl Core, source: &str, calls: &[Call]) -> f64 {
  let mut image = Image::junk(source.as_bytes().to_vec(), &mut Random::new(1));
  let mut out = vec![0; ROOM];
  let paper = whole(calls);
  let mut number = 0;
  let took = least(
    || (),
    |()| {
      for call in &paper {
        number |= core.call(&mut image.lend(), call, &Unseen::PLAIN, &mut out).number;
      }
    },
  );
  assert_eq!(number, 0, "a call of the paper is refused");
  took
}

/// Nanoseconds of the checks that the calls of the paper make, each measured on
/// the memory that it finds.
fn checks(core: &mut impl Core, source: &str, calls: &[Call]) -> f64 {
  let mut image = Image::junk(source.as_bytes().to_vec(), &mut Random::new(1));
  let mut out = vec![0; ROOM];
  let mut took = 0.0;
  for (index, call) in whole(calls).iter().enumerate() {
    if index > 0 {
      took += least(|| (), |()| _ = core.well_formed(&image.lend()));
    }
    core.call(&mut image.lend(), call, &Unseen::PLAIN, &mut out);
  }
  took
}

/// The paper with its opening and its output.
fn whole(calls: &[Call]) -> Vec<Call> {
  let open = Call::Open { source: Vec::new() };
  let to_string = Call::ToString { room: Some(ROOM as u32) };
  [open].into_iter().chain(calls.iter().cloned()).chain([to_string]).collect()
}
