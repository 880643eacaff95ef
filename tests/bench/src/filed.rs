//! Calls filed one by one, and one of them withdrawn, beside the Rust: it makes the calls
//! and keeps each in a list, and makes the others on a fresh desk.

use differential::{
  Answer, Core, Image, Unseen,
  sittings::{Memory, call_bytes},
};
use oracle::{Call, Desk, Limits, apply, random::Random};

use crate::{
  desks,
  papers::{self, EDITS},
  rust::{anew, kept, see},
  timing::least,
};

/// The calls that are withdrawn, by their places in the list.
const WITHDRAWN: [(&str, usize); 3] = [("first", 0), ("middle", EDITS / 2), ("last", EDITS - 1)];

pub fn print(core: &mut impl Core) {
  println!("\n{EDITS} calls filed on a fresh desk, and one of them withdrawn");
  println!("{:<30} {:>10} {:>10} {:>8}", "", "Rust us", "us", "ratio");
  for source in [2_048, 16_384] {
    let source = desks::edited(source, 1).source;
    let calls = accepted_calls(&source);
    let Some(ours) = filing(core, &source, &calls) else {
      println!("the core files no calls");
      return;
    };
    line(&format!("source of {} bytes, filing", source.len()), kept(&source, &calls), ours);
    for (name, place) in WITHDRAWN {
      let ours = withdrawing(core, &source, &calls, place);
      let theirs = anew(&source, &without(&calls, place), see);
      line(&format!("  withdrawing the {name}"), theirs, ours);
    }
  }
}

fn line(name: &str, theirs: f64, ours: f64) {
  let [theirs, ours] = [theirs, ours].map(|took| took / 1_000.0);
  println!("{name:<30} {theirs:>10.1} {ours:>10.1} {:>8.2}", ours / theirs);
}

/// Calls that are all accepted, and still are without each of those that are withdrawn.
fn accepted_calls(source: &str) -> Vec<Call> {
  let all_are = |calls: &[Call]| {
    let mut desk = fresh(source);
    calls.iter().all(|call| apply(&mut desk, call).number == 0)
  };
  let mut lists = (7..).map(|seed| papers::edits(&fresh(source), seed));
  let found =
    lists.find(|calls| WITHDRAWN.iter().all(|&(_, place)| all_are(&without(calls, place))));
  found.expect("a list of calls")
}

/// The records of such calls.
pub fn accepted(source: &str) -> Vec<Vec<u8>> {
  accepted_calls(source).iter().map(call_bytes).collect()
}

fn fresh(source: &str) -> Desk {
  Desk::open(Limits::FULL, source.as_bytes()).expect("a source within the limits")
}

fn without(calls: &[Call], place: usize) -> Vec<Call> {
  [&calls[..place], &calls[place + 1..]].concat()
}

/// A fresh desk, opened by the core, and an empty record.
pub fn memory(core: &mut impl Core, source: &str) -> (Image, Memory) {
  let random = &mut Random::new(1);
  let mut image = Image::junk(source.as_bytes().to_vec(), random);
  let open = Call::Open { source: Vec::new() };
  core.call(&mut image.lend(), &open, &Unseen::PLAIN, &mut []);
  (image, Memory::empty(random))
}

/// Nanoseconds of all filings; none where the core files no calls.
fn filing(core: &mut impl Core, source: &str, calls: &[Call]) -> Option<f64> {
  let (start, empty) = memory(core, source);
  let calls: Vec<Vec<u8>> = calls.iter().map(call_bytes).collect();
  core.file(&mut start.clone().lend(), &mut empty.clone().lend(), &calls[0])?;
  let mut number = 0;
  let took = least(
    || (start.clone(), empty.clone()),
    |(image, record)| {
      for call in &calls {
        let answer = core.file(&mut image.lend(), &mut record.lend(), call);
        number |= answer.map_or(u32::MAX, |answer| answer.number);
      }
    },
  );
  assert_eq!(number, 0, "a call is refused");
  Some(took)
}

/// Nanoseconds of the withdrawal of the call at this place, behind the filing of all.
fn withdrawing(core: &mut impl Core, source: &str, calls: &[Call], place: usize) -> f64 {
  let (mut image, mut record) = memory(core, source);
  for call in calls.iter().map(call_bytes) {
    core.file(&mut image.lend(), &mut record.lend(), &call);
  }
  let k = place as u32 + 1;
  least(
    || (image.clone(), record.clone()),
    |(image, record)| {
      let answer = core.withdraw(&mut image.lend(), &mut record.lend(), k);
      assert_eq!(answer, Some(Answer::ACCEPTED));
    },
  )
}
