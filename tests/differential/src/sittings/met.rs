//! What was compared: sittings by what they try, the numbers of calls, and the cases that must
//! be met.

use std::{collections::BTreeMap, fmt, marker::PhantomData};

use super::{
  Action, Sides, Sitting,
  run::Count,
  seen::{History, Seen},
};

/// A case by its name, and whether it is met.
pub type Case = (String, bool);

/// The cases that the sittings of a program must meet.
pub trait Cases {
  fn of(seen: &Seen) -> Vec<Case>;
}

#[derive(Debug, Clone, Default)]
pub struct CaseTally<C> {
  pub sittings: u64,
  /// Sittings with calls that the core does not have.
  pub passed_over: u64,
  tried: BTreeMap<&'static str, u64>,
  /// How often each number was met, by actions of any kind.
  numbers: BTreeMap<u32, u64>,
  cases: BTreeMap<String, u64>,
  history: History,
  of: PhantomData<C>,
}

impl<C: Cases> Count for CaseTally<C> {
  fn before(&mut self, sides: &Sides, second: Option<&Sides>, action: &Action) {
    let seen = Seen::of(&self.history, sides, second, action);
    *self.numbers.entry(seen.answer.number).or_default() += 1;
    for (name, is_met) in C::of(&seen) {
      *self.cases.entry(name).or_default() += is_met as u64;
    }
    self.history = History::behind(&seen);
  }

  fn whole(&mut self, sitting: &Sitting) {
    self.sittings += 1;
    *self.tried.entry(sitting.tries).or_default() += 1;
    self.history = History::default();
  }

  fn passed_over(&mut self) {
    self.passed_over += 1;
    self.history = History::default();
  }
}

impl<C> CaseTally<C> {
  /// What was never met.
  pub fn missing(&self) -> Vec<String> {
    self.cases.iter().filter(|&(_, &met)| met == 0).map(|(name, _)| name.clone()).collect()
  }
}

impl<C> fmt::Display for CaseTally<C> {
  fn fmt(&self, out: &mut fmt::Formatter) -> fmt::Result {
    writeln!(out, "sittings: {}", self.sittings)?;
    self.tried.iter().try_for_each(|(tries, met)| writeln!(out, "  {tries}: {met}"))?;
    if self.passed_over > 0 {
      writeln!(out, "sittings passed over, as the core lacks calls: {}", self.passed_over)?;
    }
    writeln!(out, "actions: {}", self.numbers.values().sum::<u64>())?;
    let mut numbers = self.numbers.iter();
    numbers.try_for_each(|(number, met)| writeln!(out, "  number {number}: {met}"))?;
    self.cases.iter().try_for_each(|(name, met)| writeln!(out, "  with {name}: {met}"))
  }
}
