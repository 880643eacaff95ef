//! Random papers: the first that are short, and then those that have a number
//! which their call has seldom had so far.

use super::{Writer, record, text};
use crate::{Call, Limits, Script, generate::generate};

const SEED: u64 = 2;
/// So many calls are looked through.
const CALLS: usize = 60_000;
/// So many are written in any case.
const FIRST: usize = 2_400;
/// So often each call is to have each of its numbers.
const OFTEN: usize = 3;
/// No line of a paper is longer.
const LONGEST: usize = 400;
/// A paper that is taken for a number has at most so many calls.
const MOST: usize = 60;

pub fn papers(writer: &mut Writer) {
  let calls = generate(SEED, CALLS);
  let papers = calls.chunk_by(|_, next| !matches!(next, Call::Open { .. }));
  for paper in papers {
    let paper = short(paper);
    if writer.calls < FIRST || (paper.len() <= MOST && seldom(writer, &paper)) {
      write(writer, &paper);
    }
  }
}

/// The paper without the calls whose lines are long; empty if its opening is, or
/// is refused.
fn short(paper: &[Call]) -> Vec<Call> {
  let mut script = Script::new(Limits::FULL);
  let mut kept = Vec::new();
  for call in paper.iter().filter(|call| **call != Call::Dump) {
    let mut after = script.clone();
    let Some(answer) = after.call(call) else { break };
    let record = record::Record::of(call, &answer, record::Tables::Kept);
    if record.to_string().len() <= LONGEST {
      script = after;
      kept.push(call.clone());
    }
  }
  kept
}

/// Whether a call of the paper has a number that it has seldom had.
fn seldom(writer: &Writer, paper: &[Call]) -> bool {
  let mut script = Script::new(Limits::FULL);
  paper.iter().any(|call| {
    let line = call.to_string();
    let name = line.split(' ').next().unwrap_or_default().to_string();
    let number = script.call(call).map_or(0, |answer| answer.number);
    writer.met.get(&(name, number)).is_none_or(|&met| met < OFTEN)
  })
}

/// The paper, and its output at the end.
fn write(writer: &mut Writer, paper: &[Call]) {
  for call in paper {
    writer.call(call);
  }
  if let Some(desk) = writer.script.desk().filter(|_| writer.opened) {
    let output = desk.magic_string().to_string();
    if text::encode(output.as_bytes()).len() <= LONGEST {
      writer.call(&Call::ToString { room: None });
    }
  }
}
