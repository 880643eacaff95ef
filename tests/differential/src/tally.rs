//! How many calls were compared, the numbers that they got, and the cuts of edits.

use std::{collections::BTreeMap, fmt};

#[derive(Debug, Clone, Default, PartialEq, Eq)]
pub struct Tally {
  pub papers: u64,
  pub calls: u64,
  /// Lists of edits that were made at once.
  pub lists: u64,
  /// Calls that the core does not have.
  pub passed_over: u64,
  pub numbers: [u64; 16],
  /// Edits that cut, by their number and how many cuts they made: at most `MANY` are told
  /// apart.
  pub cuts: BTreeMap<(u32, u32), u64>,
}

/// What is counted of a call.
#[derive(Debug, Clone, Copy, PartialEq, Eq)]
pub struct Met {
  pub number: u32,
  /// The cuts that remain; of 13 those that it takes back.
  pub cuts: u32,
}

/// So many cuts or more.
pub const MANY: u32 = 4;

impl Tally {
  pub fn add(&mut self, met: Met) {
    let Met { number, cuts } = met;
    self.calls += 1;
    self.numbers[number as usize] += 1;
    if cuts > 0 {
      *self.cuts.entry((number, cuts.min(MANY))).or_default() += 1;
    }
  }
}

impl fmt::Display for Tally {
  fn fmt(&self, out: &mut fmt::Formatter) -> fmt::Result {
    writeln!(out, "papers: {}", self.papers)?;
    writeln!(out, "calls: {}", self.calls)?;
    if self.lists > 0 {
      writeln!(out, "made in lists: {}", self.lists)?;
    }
    if self.passed_over > 0 {
      writeln!(out, "calls passed over, as the core has none such: {}", self.passed_over)?;
    }
    let mut numbers = self.numbers.iter().enumerate();
    numbers.try_for_each(|(number, met)| writeln!(out, "  number {number}: {met}"))?;
    if !self.cuts.is_empty() {
      writeln!(
        out,
        "edits that cut, by number ({MANY}: as many or more; of 13 what it takes back)"
      )?;
    }
    let mut cuts = self.cuts.iter();
    cuts
      .try_for_each(|((number, cuts), met)| writeln!(out, "  number {number}, cuts {cuts}: {met}"))
  }
}
