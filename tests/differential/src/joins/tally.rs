//! What was compared: pairs by what they try, numbers, and what the numbers came from.

use std::{collections::BTreeMap, fmt};

use oracle::{Answer, number::*};

use super::{Pair, Reasons, due::DUE};
use crate::any_order::{
  Check, Start,
  premises::{MOVES_FREE, ONE_MOVE, REACHES, SOURCE, SPACE, WIDTH, WITHIN_SOURCE},
};

#[derive(Debug, Clone, Default)]
pub struct Tally {
  pub pairs: u64,
  /// Pairs with calls that the core does not have.
  pub passed_over: u64,
  tried: BTreeMap<&'static str, u64>,
  numbers: BTreeMap<u32, u64>,
  /// How often each of `kinds` was met.
  with: BTreeMap<String, u64>,
}

/// The numbers of a join.
const NUMBERS: [u32; 6] = [ACCEPTED, NOT_WELL_FORMED, LIMIT, BAD_SHEET, NOT_APART, REFUSED_ALONE];

/// The numbers that a call can get alone, whose width and positions keep the checks.
const ALONE: [u32; 9] = [
  NOT_UTF8,
  INSIDE_CHARACTER,
  END_BEFORE_START,
  CUT_IN_REPLACEMENT,
  ACROSS_MOVED_EDGE,
  INTO_ITSELF,
  NOT_TOGETHER,
  LIMIT,
  FROZEN,
];

/// The checks whose failure is 18: all but 2, which no record fails, 8 and 9.
const APART: [Check; 6] = [SOURCE, WIDTH, WITHIN_SOURCE, REACHES, ONE_MOVE, MOVES_FREE];

/// A kind of joins, by its name and whether one is of it.
type Kind = (String, bool);

impl Tally {
  /// Adds a pair whose join gave this answer.
  pub fn add(&mut self, pair: &Pair, answer: &Answer) {
    self.pairs += 1;
    *self.tried.entry(pair.tries).or_default() += 1;
    *self.numbers.entry(answer.number).or_default() += 1;
    for (name, is_of) in kinds(pair, answer) {
      *self.with.entry(name).or_default() += is_of as u64;
    }
  }

  /// Each number and each kind, with how often it was met.
  fn met(&self) -> impl Iterator<Item = (String, u64)> {
    let numbers = NUMBERS.iter().map(|number| {
      (format!("number {number}"), self.numbers.get(number).copied().unwrap_or_default())
    });
    numbers.chain(self.with.iter().map(|(name, met)| (format!("with {name}"), *met)))
  }

  /// What was never met.
  pub fn missing(&self) -> Vec<String> {
    self.met().filter(|&(_, met)| met == 0).map(|(name, _)| name).collect()
  }
}

fn kinds(pair: &Pair, answer: &Answer) -> Vec<Kind> {
  let reasons = Reasons::of(pair);
  let mut kinds = Vec::new();
  let mut add = |name: String, is_of: bool| kinds.push((name, is_of));
  accepted(pair, answer, &reasons, &mut add);
  refused(answer.number, &reasons, &mut add);
  for (place, one) in DUE.iter().enumerate() {
    for other in &DUE[place + 1..] {
      add(format!("{one} and {other} due at once"), reasons.has(*one) && reasons.has(*other));
    }
  }
  kinds
}

/// Of joins that are accepted: where, of what, and what they use up.
fn accepted(pair: &Pair, answer: &Answer, reasons: &Reasons, add: &mut impl FnMut(String, bool)) {
  let is_accepted = answer.number == ACCEPTED;
  let is_fresh = match &pair.start {
    Start::Opened { calls, .. } => Some(calls.is_empty()),
    Start::Made(_) => None,
  };
  let [first, second] = reasons.calls;
  let left = reasons.left;
  for (name, is_of) in [
    ("on a fresh desk", is_fresh == Some(true)),
    ("on a desk in use", is_fresh == Some(false)),
    ("on a desk made by hand", is_fresh.is_none()),
    ("on a desk with marks", pair.desk().marks().any()),
    ("of calls in both lists", first > 0 && second > 0),
    ("of the first list alone", first > 0 && second == 0),
    ("of the second list alone", first == 0 && second > 0),
    ("of no call", first + second == 0),
    ("of 170 calls", first + second == 170),
    ("that cuts", answer.value > 0),
    ("of calls that cut nothing", first + second > 0 && answer.value == 0),
    ("with the chunks used up", left.chunks == 0),
    ("with the pieces used up", left.pieces == 0),
    ("with the bytes used up", left.bytes == 0),
  ] {
    add(format!("a join {name}"), is_accepted && is_of);
  }
}

/// Of joins that are refused: by what, and in which list.
fn refused(number: u32, reasons: &Reasons, add: &mut impl FnMut(String, bool)) {
  let [bad_first, bad_second] = reasons.bad;
  add("16 of the first list alone".to_string(), number == BAD_SHEET && !bad_second);
  add("16 of the second list alone".to_string(), number == BAD_SHEET && !bad_first);
  add("16 of both lists".to_string(), number == BAD_SHEET && bad_first && bad_second);
  for check in APART {
    let is_alone = number == NOT_APART && reasons.failed.iter().eq([&check]);
    add(format!("18 by check {check} alone"), is_alone);
    // Those of every two edits.
    if [REACHES, ONE_MOVE, MOVES_FREE].contains(&check) {
      let is_across = reasons.is_across(check);
      add(format!("18 by check {check} alone, across the lists"), is_alone && is_across);
      add(format!("18 by check {check} alone, inside a list"), is_alone && !is_across);
    }
  }
  add("18 of no call".to_string(), number == NOT_APART && reasons.calls == [0, 0]);
  for alone in ALONE {
    let is_of = number == REFUSED_ALONE && reasons.alone.iter().eq([&alone]);
    add(format!("19 by calls that get {alone} alone"), is_of);
  }
  let is_past = [reasons.left.chunks < 0, reasons.left.pieces < 0, reasons.left.bytes < 0];
  let is_limit = number == LIMIT;
  for (place, name) in ["chunks", "pieces", "bytes"].into_iter().enumerate() {
    let mut only = [false; 3];
    only[place] = true;
    add(format!("13 of {name} alone"), is_limit && is_past == only);
    let by_one = [reasons.left.chunks, reasons.left.pieces, reasons.left.bytes][place] == -1;
    add(format!("13 of one past the {name}"), is_limit && is_past == only && by_one);
  }
  let is_across = reasons.is_across(SPACE);
  add("13 of both lists together".to_string(), is_limit && is_across);
  add("13 of one list".to_string(), is_limit && !is_across);
}

impl fmt::Display for Tally {
  fn fmt(&self, out: &mut fmt::Formatter) -> fmt::Result {
    writeln!(out, "pairs: {}, each joined in both orders of its lists", self.pairs)?;
    self.tried.iter().try_for_each(|(tries, met)| writeln!(out, "  {tries}: {met}"))?;
    if self.passed_over > 0 {
      writeln!(out, "pairs passed over, as the core lacks calls: {}", self.passed_over)?;
    }
    writeln!(out, "joins")?;
    self.met().try_for_each(|(name, met)| writeln!(out, "  {name}: {met}"))
  }
}
