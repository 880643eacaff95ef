//! What was compared: sittings by what they try, and the numbers of filings and
//! withdrawals.

use std::{collections::BTreeMap, fmt};

use oracle::number::FROZEN;

use super::{
  Sitting,
  run::Count,
  sides::{Filing, Withdrawal},
};

#[derive(Debug, Clone, Default)]
pub struct Tally {
  pub sittings: u64,
  /// Sittings with calls that the core does not have.
  pub passed_over: u64,
  tried: BTreeMap<&'static str, u64>,
  /// Calls that were made and not filed.
  pub made: u64,
  filed: Numbers,
  not_filed: Numbers,
  /// Filed calls, accepted and refused, that made cuts.
  cuts: [u64; 2],
  withdrawn: Numbers,
  to_refused: u64,
  to_accepted: u64,
  /// Withdrawals from a kept desk that was not fresh, and those that lost edits.
  of_desk_in_use: u64,
  lost_edits: u64,
}

/// How often each number was met.
type Numbers = [u64; FROZEN as usize + 1];

/// The numbers with which a call is filed: those of a sheet's records.
const FILED: [usize; 11] = [0, 1, 3, 4, 5, 6, 7, 8, 9, 10, 13];
/// Those with which it is not.
const NOT_FILED: [usize; 3] = [2, 13, 16];
const WITHDRAWN: [usize; 3] = [0, 2, 17];

impl Count for Tally {
  fn whole(&mut self, sitting: &Sitting) {
    self.sittings += 1;
    *self.tried.entry(sitting.tries).or_default() += 1;
  }

  fn passed_over(&mut self) {
    self.passed_over += 1;
  }

  fn made(&mut self) {
    self.made += 1;
  }

  fn filed(&mut self, filing: Filing) {
    let numbers = if filing.is_filed { &mut self.filed } else { &mut self.not_filed };
    numbers[filing.number as usize] += 1;
    self.cuts[(filing.number != 0) as usize] += (filing.cuts > 0) as u64;
  }

  fn withdrawn(&mut self, withdrawal: Withdrawal) {
    self.withdrawn[withdrawal.number as usize] += 1;
    self.to_refused += withdrawal.to_refused;
    self.to_accepted += withdrawal.to_accepted;
    self.of_desk_in_use += withdrawal.of_desk_in_use as u64;
    self.lost_edits += withdrawal.loses_edits as u64;
  }
}

impl Tally {
  /// Each number of each kind of call, cuts, and turns of answers, with how often it was
  /// met.
  fn met(&self) -> impl Iterator<Item = (String, u64)> {
    let of = |name: &'static str, numbers: &'static [usize], met: Numbers| {
      numbers.iter().map(move |&number| (format!("{name} with {number}"), met[number]))
    };
    let others = [
      ("filed with cuts, accepted", self.cuts[0]),
      ("filed with cuts, refused", self.cuts[1]),
      ("turned from accepted to refused", self.to_refused),
      ("turned from refused to accepted", self.to_accepted),
      ("withdrawal from a kept desk in use", self.of_desk_in_use),
      ("withdrawal that loses edits", self.lost_edits),
    ];
    of("filed", &FILED, self.filed)
      .chain(of("not filed", &NOT_FILED, self.not_filed))
      .chain(of("withdrawal", &WITHDRAWN, self.withdrawn))
      .chain(others.map(|(name, met)| (name.to_string(), met)))
  }

  /// What was never met.
  pub fn missing(&self) -> Vec<String> {
    self.met().filter(|&(_, met)| met == 0).map(|(name, _)| name).collect()
  }
}

impl fmt::Display for Tally {
  fn fmt(&self, out: &mut fmt::Formatter) -> fmt::Result {
    writeln!(out, "sittings: {}", self.sittings)?;
    self.tried.iter().try_for_each(|(tries, met)| writeln!(out, "  {tries}: {met}"))?;
    if self.passed_over > 0 {
      writeln!(out, "sittings passed over, as the core lacks calls: {}", self.passed_over)?;
    }
    let [filed, not_filed, withdrawn] =
      [self.filed, self.not_filed, self.withdrawn].map(|numbers| numbers.iter().sum::<u64>());
    let made = self.made;
    writeln!(out, "filings: {}, withdrawals: {withdrawn}, other calls: {made}", filed + not_filed)?;
    self.met().try_for_each(|(name, met)| writeln!(out, "  {name}: {met}"))
  }
}
