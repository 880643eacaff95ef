//! `model_table SEED COUNT`: papers of random calls, at least COUNT calls
//! together, with the oracle's answers and the desk at the end of each, as
//! statements for the checker: each paper with document 01's limits and with tiny
//! ones, under which 13 takes the place of 0, 6, 7, 9 and an update's 10; some with
//! freezings between their calls too. Papers with long texts are passed over: the
//! checker computes with lists. The first line says how many edits each 13 stands for,
//! the second how many edits report cuts, by number, and the third how many calls are
//! refused with 20, by name.

use std::{collections::BTreeMap, fmt, process::ExitCode};

use oracle::{Call, Desk, Limits, Script, antt, apply, generate, number};

/// No text of a paper, and no desk, is longer than this.
const LONGEST: usize = 160;

/// One paper in so many is played with freezings too.
const FROZEN: usize = 3;

/// Limits that short papers reach: chunks, pieces, bytes.
const TINY: [[usize; 3]; 5] = [[3, 4, 12], [1, 2, 40], [2, 1, 1], [4, 40, 6], [6, 3, 0]];

fn main() -> ExitCode {
  let arguments: Vec<Option<u64>> =
    std::env::args().skip(1).map(|word| word.parse().ok()).collect();
  let [Some(seed), Some(count)] = arguments[..] else {
    eprintln!("usage: model_table SEED COUNT");
    return ExitCode::from(2);
  };
  print!("{}", table(seed, count as usize));
  ExitCode::SUCCESS
}

fn table(seed: u64, count: usize) -> String {
  let mut statements = String::new();
  let (mut papers, mut calls) = (0, 0);
  let (mut by_13, mut with_cuts, mut frozen) = (Vec::new(), Vec::new(), Vec::new());
  for paper in generate::generate(seed, count * 3).chunk_by(|_, next| !is_open(next)) {
    if calls >= count {
      break;
    }
    let Some(full) = played(paper, Limits::FULL) else { continue };
    statements += &statement(&format!("paper{papers}"), "full", &full.lines);
    with_cuts.extend(full.with_cuts);
    let [chunks, pieces, bytes] = TINY[papers % TINY.len()];
    let tiny = Limits { chunks, pieces, bytes, ..Limits::FULL };
    if let Some(tiny) = played(paper, tiny) {
      let limits = format!("(tiny {chunks} {pieces} {bytes})");
      statements += &statement(&format!("tiny{papers}"), &limits, &tiny.lines);
      by_13.extend(tiny.by_13);
      with_cuts.extend(tiny.with_cuts);
    }
    if papers % FROZEN == 0
      && let Some(played) = played(&with_freezings(paper), Limits::FULL)
    {
      statements += &statement(&format!("frozen{papers}"), "full", &played.lines);
      frozen.extend(played.frozen);
    }
    papers += 1;
    calls += paper.len();
  }
  let [by_13, with_cuts, frozen] = [counted(by_13), counted(with_cuts), counted(frozen)];
  format!(
    "-- {papers} papers, {calls} calls, seed {seed}; with tiny limits 13 in place of {by_13}\n\
    -- edits that report cuts, by number: {with_cuts}\n\
    -- calls that are refused with 20, by name: {frozen}\n{statements}"
  )
}

/// How often each of them is there.
fn counted<T: Ord + fmt::Display>(met: Vec<T>) -> String {
  let mut times = BTreeMap::<T, usize>::new();
  met.into_iter().for_each(|met| *times.entry(met).or_default() += 1);
  let times: Vec<String> = times.iter().map(|(met, times)| format!("{met}: {times}")).collect();
  times.join(", ")
}

/// The paper with a freezing before some calls: of their ranges in turns, and of the front of
/// these.
fn with_freezings(paper: &[Call]) -> Vec<Call> {
  let mut all = Vec::new();
  for (place, call) in paper.iter().enumerate() {
    if let [start, end, ..] = call.positions()[..]
      && place % 3 == 1
    {
      let end = if place % 2 == 0 { end } else { end.min(start.saturating_add(1)) };
      all.push(Call::Freeze { start, end });
    }
    all.push(call.clone());
  }
  all
}

fn is_open(call: &Call) -> bool {
  matches!(call, Call::Open { .. })
}

fn statement(name: &str, limits: &str, lines: &[String]) -> String {
  let lines = lines.join(" ∷\n    ");
  format!("\n{name} : Right {limits} (\n    {lines} ∷ [])\nUNFOLDING\n{name} = refl\n")
}

/// A paper's calls with their answers, and the desk that they leave.
#[derive(Default)]
struct Played {
  lines: Vec<String>,
  /// For each 13 of an edit, the number that document 01's limits give on the same desk.
  by_13: Vec<u32>,
  /// The number of each edit that reports cuts.
  with_cuts: Vec<u32>,
  /// The name of each call that is refused with 20.
  frozen: Vec<String>,
}

/// None for a paper with long texts, or whose opening is refused.
fn played(paper: &[Call], limits: Limits) -> Option<Played> {
  let mut script = Script::new(limits);
  let mut played = Played::default();
  for call in paper.iter().filter(|call| **call != Call::Dump) {
    let before = script.desk().map(Desk::data);
    let answer = script.call(call)?;
    let source = if let Call::Open { source } = call { source.len() } else { 0 };
    if source.max(call.text().map_or(0, <[u8]>::len)).max(answer.bytes.len()) > LONGEST {
      return None;
    }
    if let (13, Some(before)) = (answer.number, before) {
      played.by_13.push(apply(&mut Desk::build(Limits::FULL, &before), call).number);
    }
    if call.is_edit() && answer.value > 0 {
      played.with_cuts.push(answer.number);
    }
    if answer.number == number::FROZEN {
      played.frozen.extend(call.to_string().split(' ').next().map(str::to_string));
    }
    played.lines.push(antt::step(call, &answer));
  }
  played.lines.push(antt::desk(&script.desk()?.data()));
  Some(played)
}
