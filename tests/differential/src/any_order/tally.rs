//! What was compared, by what the lists had.

use std::fmt;

use oracle::Call;

use super::{
  Sitting,
  premises::{Left, Premises, inserts, is_move},
  run::Cuts,
  sitting::Start,
};

#[derive(Debug, Clone, Default)]
pub struct Tally {
  pub lists: u64,
  pub orders: u64,
  pub edits: u64,
  /// Lists with a call that the core does not have.
  pub passed_over: u64,
  /// How many of the lists had each of these.
  with: [u64; KINDS.len()],
  /// How many had an edit that made more cuts in one order than in another.
  pub cut_otherwise: u64,
  /// The numbers of later calls, once for each list.
  pub numbers: [u64; 21],
}

/// What a list may have, on its desk.
type Kind = fn(&Sitting, Left) -> bool;

const KINDS: [(&str, Kind); 13] = [
  (
    "a fresh desk",
    |sitting, _| matches!(&sitting.start, Start::Opened { calls, .. } if calls.is_empty()),
  ),
  (
    "a desk in use",
    |sitting, _| matches!(&sitting.start, Start::Opened { calls, .. } if !calls.is_empty()),
  ),
  ("a desk made by hand", |sitting, _| matches!(sitting.start, Start::Made(_))),
  ("a desk with marks", |sitting, _| sitting.start.desk().chunks.iter().any(|chunk| chunk.frozen)),
  ("all orders of 4 edits", |sitting, _| sitting.list.len() == 4 && sitting.orders.len() == 24),
  ("more than 4 edits", |sitting, _| sitting.list.len() > 4),
  ("insertions alone", |sitting, _| sitting.list.iter().all(inserts)),
  ("a move", |sitting, _| sitting.list.iter().any(is_move)),
  ("a replacement that overwrites", |sitting, _| {
    sitting.list.iter().any(|call| overwrites(call) == Some(true))
  }),
  ("a replacement that does not", |sitting, _| {
    sitting.list.iter().any(|call| overwrites(call) == Some(false))
  }),
  ("the chunks used up", |_, left| left.chunks == 0),
  ("the pieces used up", |_, left| left.pieces == 0),
  ("the bytes used up", |_, left| left.bytes == 0),
];

fn overwrites(call: &Call) -> Option<bool> {
  if let Call::UpdateWith { overwrite, .. } = call { Some(*overwrite != 0) } else { None }
}

const CUT_OTHERWISE: &str = "an edit that cuts otherwise in another order";

impl Tally {
  /// A sitting, with the cuts of its edits in each order, and the numbers of later calls.
  pub fn add(&mut self, sitting: &Sitting, cuts: &[Cuts], later: impl Iterator<Item = u32>) {
    self.lists += 1;
    self.orders += sitting.orders.len() as u64;
    self.edits += (sitting.orders.len() * sitting.list.len()) as u64;
    let left = Premises::on(&sitting.start.desk()).left(&sitting.list);
    for (with, (_, has)) in self.with.iter_mut().zip(KINDS) {
      *with += has(sitting, left) as u64;
    }
    self.cut_otherwise += cuts.windows(2).any(|pair| pair[0] != pair[1]) as u64;
    later.for_each(|number| self.numbers[number as usize] += 1);
  }

  /// What no list had, and the numbers that no later call gave: all but 2, and 17, which
  /// only a withdrawal gives.
  pub fn missing(&self) -> Vec<String> {
    let kinds = self.kinds().into_iter().filter(|(_, with)| *with == 0);
    let kinds = kinds.map(|(name, _)| format!("no list had {name}"));
    let numbers = self.numbers.iter().enumerate();
    let numbers = numbers.filter(|&(number, met)| ![2, 17].contains(&number) && *met == 0);
    let numbers = numbers.map(|(number, _)| format!("no later call gave {number}"));
    kinds.chain(numbers).collect()
  }

  /// What lists may have, and how many had it.
  fn kinds(&self) -> Vec<(&'static str, u64)> {
    let kinds = KINDS.iter().map(|(name, _)| *name).zip(self.with);
    kinds.chain([(CUT_OTHERWISE, self.cut_otherwise)]).collect()
  }
}

impl fmt::Display for Tally {
  fn fmt(&self, out: &mut fmt::Formatter) -> fmt::Result {
    writeln!(out, "lists: {}", self.lists)?;
    for (name, with) in self.kinds() {
      writeln!(out, "  with {name}: {with}")?;
    }
    if self.passed_over > 0 {
      writeln!(out, "lists passed over, as the core lacks a call: {}", self.passed_over)?;
    }
    writeln!(out, "orders: {}, of {} edits together", self.orders, self.edits)?;
    writeln!(out, "later calls of each order: {}", self.numbers.iter().sum::<u64>())?;
    let mut numbers = self.numbers.iter().enumerate();
    numbers.try_for_each(|(number, met)| writeln!(out, "  number {number}: {met}"))
  }
}
