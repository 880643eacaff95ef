//! Two lists joined on a fresh desk and on one in use, beside the Rust, which makes their
//! calls: as many as there is space for, and lists that are refused once all tests are made,
//! or some.

#[cfg(feature = "inner")]
use differential::cores::List;
use differential::{Core, Image, Unseen, joins::Lists};
use oracle::{
  APPEND_LEFT,
  Call::{self, *},
  SETTINGS,
  number::{ACCEPTED, LIMIT, NOT_APART},
  random::Random,
};

#[cfg(feature = "inner")]
use crate::inner;
use crate::{
  desks,
  rust::{made, made_behind},
  timing::least,
};

/// As many calls as a fresh desk has space for by the reckoning, and as many as two lists
/// can have.
const JOINED: usize = 170;
const MOST: usize = 400;

/// A width of names.
const NAMES: usize = 48;

pub fn print(core: &mut impl Core) {
  println!("\ntwo lists joined, beside the Rust's calls");
  println!("{:<NAMES$} {:>10} {:>10} {:>8}", "", "Rust us", "us", "ratio");
  for source in [2_048, 16_384] {
    let source = desks::edited(source, 1).source;
    println!("source of {} bytes, a fresh desk", source.len());
    let image = opened(core, &source);
    let in_turn = apart(source.len(), JOINED);
    let calls = shuffled(&in_turn);
    if joining(core, &image, &calls, ACCEPTED).is_none() {
      println!("the core joins no lists");
      return;
    }
    joined(core, &image, &source, &[], &calls, "85 and 85 calls");
    joined(core, &image, &source, &[], &in_turn, "the same, each list from the front to the back");
    let (many, part) = (apart(source.len(), MOST), source.len() / MOST);
    for (name, calls, number) in [
      ("200 and 200 calls, refused with 13", many.clone(), LIMIT),
      ("with 18, where the last two clash", clashing(&many, part, MOST - 2), NOT_APART),
      ("with 18, where the first two clash", clashing(&many, part, 0), NOT_APART),
    ] {
      let ours = joining(core, &image, &calls, number).unwrap_or_default();
      line(name, made(&source, &calls), ours);
    }

    let (before, calls) = calls.split_at(JOINED / 2);
    let image = edited(core, image, before);
    println!("the desk that the first half of these calls leaves");
    joined(core, &image, &source, before, calls, "43 and 42 calls");
  }
}

/// The join of these calls, which is accepted, on what others left; then the same calls, the
/// first list and then the second, by exported edits and by an inner run, so that what the
/// tests cost shows.
fn joined(
  core: &mut impl Core,
  image: &Image,
  source: &str,
  others: &[Call],
  calls: &[Call],
  name: &str,
) {
  let made = in_turns(calls).concat();
  let theirs = made_behind(source, others, &made);
  let ours = joining(core, image, calls, ACCEPTED).unwrap_or_default();
  line(name, theirs, ours);
  line("  by exported edits", theirs, by_edits(core, image, &made));
  #[cfg(feature = "inner")]
  {
    let run = by_inner(image, &made);
    line("  by an inner run", theirs, run);
    line("  the join less the inner run", theirs, ours - run);
  }
}

fn line(name: &str, theirs: f64, ours: f64) {
  let [theirs, ours] = [theirs, ours].map(|took| took / 1_000.0);
  println!("{name:<NAMES$} {theirs:>10.1} {ours:>10.1} {:>8.2}", ours / theirs);
}

/// A fresh desk, opened by the core.
fn opened(core: &mut impl Core, source: &str) -> Image {
  let mut image = Image::junk(source.as_bytes().to_vec(), &mut Random::new(1));
  let open = Call::Open { source: Vec::new() };
  core.call(&mut image.lend(), &open, &Unseen::PLAIN, &mut []);
  image
}

/// The desk after these calls, made by the core.
fn edited(core: &mut impl Core, mut image: Image, calls: &[Call]) -> Image {
  for call in calls {
    let answer = core.call(&mut image.lend(), call, &Unseen::PLAIN, &mut []);
    assert_eq!(answer.number, ACCEPTED, "{call}");
  }
  image
}

/// The calls in another order.
fn shuffled(calls: &[Call]) -> Vec<Call> {
  let mut random = Random::new(11);
  let mut calls = calls.to_vec();
  for place in (1..calls.len()).rev() {
    calls.swap(place, random.below(place + 1));
  }
  calls
}

/// So many calls, each in a part of the source of its own, and one of them a move between
/// edges of such parts: they are apart, and each is accepted alone.
fn apart(source: usize, count: usize) -> Vec<Call> {
  let mut random = Random::new(7);
  let part = source / count;
  let within = |place: usize| {
    let low = place * part;
    let from = low + random.below(part - 1);
    let to = from + random.between(1, (low + part - from).min(12));
    let (start, end) = (from as u32, to as u32);
    let at = (low + random.between(1, part - 1)) as u32;
    let text = b"inserted"[..random.between(1, 8)].to_vec();
    match random.below(10) {
      0..=3 => UpdateWith { start, end, overwrite: 1, text },
      4 => Remove { start, end },
      5 => Reset { start, end },
      choice => Insert { at, text, setting: SETTINGS[choice - 6] },
    }
  };
  let mut calls: Vec<Call> = (0..count).map(within).collect();
  let [start, end, to] = [10, 11, 20].map(|edge| (edge * part) as u32);
  calls[count / 2] = Relocate { start, end, to };
  calls
}

/// The calls, each in a part of so many bytes, with two at this place, one in each list,
/// that reach the same byte.
fn clashing(calls: &[Call], part: usize, place: usize) -> Vec<Call> {
  let mut calls = calls.to_vec();
  let at = (place * part + 1) as u32;
  calls[place..place + 2].fill(Insert { at, text: b"x".to_vec(), setting: APPEND_LEFT });
  calls
}

/// The calls in two lists, in turns.
fn in_turns(calls: &[Call]) -> [Vec<Call>; 2] {
  [0, 1].map(|list| calls.iter().skip(list).step_by(2).cloned().collect())
}

/// The same, as the bytes of the lists.
fn lists(calls: &[Call]) -> Lists {
  let [first, second] = in_turns(calls);
  Lists::of(&first, &second)
}

/// Nanoseconds of a join that gives this number; none where the core joins no lists.
fn joining(core: &mut impl Core, image: &Image, calls: &[Call], number: u32) -> Option<f64> {
  let Lists { first, second } = lists(calls);
  core.join(&mut image.clone().lend(), &first, &second)?;
  Some(least(
    || image.clone(),
    |image| {
      let answer = core.join(&mut image.lend(), &first, &second);
      assert_eq!(answer.map(|answer| answer.number), Some(number));
    },
  ))
}

/// Nanoseconds of the same calls by exported edits.
fn by_edits(core: &mut impl Core, image: &Image, calls: &[Call]) -> f64 {
  least(
    || image.clone(),
    |image| {
      for call in calls {
        let answer = core.call(&mut image.lend(), call, &Unseen::PLAIN, &mut []);
        assert_eq!(answer.number, ACCEPTED, "{call}");
      }
    },
  )
}

/// Nanoseconds of the same calls as one list behind one check.
#[cfg(feature = "inner")]
fn by_inner(image: &Image, calls: &[Call]) -> f64 {
  let list = List::new(calls, &Unseen::PLAIN);
  let mut answers = vec![0; list.len()];
  least(|| image.clone(), |image| inner::make(&mut image.lend(), &list, &mut answers))
}
