//! Everything that a join could be refused for, whatever comes first.

use std::collections::BTreeSet;

use oracle::{Call, number::*};

use super::{Pair, reading};
use crate::{
  any_order::{
    Check, Premises,
    premises::{ALONE, Left, SPACE},
  },
  sheets::{fields::split_list, reading::records},
};

/// Of a harmed desk, what the calls would meet if it were not harmed; of lists that break a
/// rule, what those calls would meet that can be read.
pub struct Reasons {
  pub no_desk: bool,
  /// Which lists break a rule.
  pub bad: [bool; 2],
  /// The checks that the calls of both lists fail; and those of each list alone, but for
  /// check 8.
  pub failed: BTreeSet<Check>,
  of_list: [BTreeSet<Check>; 2],
  /// The numbers that calls get alone.
  pub alone: BTreeSet<u32>,
  /// How many calls each list has.
  pub calls: [usize; 2],
  pub left: Left,
}

impl Reasons {
  pub fn of(pair: &Pair) -> Self {
    let premises = Premises::of(pair.desk());
    let lists = pair.lists.slices();
    let calls = lists.map(readable);
    let both = calls.concat();
    let mut alone: BTreeSet<u32> = both.iter().map(|call| premises.alone(call)).collect();
    alone.remove(&ACCEPTED);
    let failed = |calls: &[Call]| {
      let no_space = !premises.left(calls).is_enough();
      let mut failed = premises.not_apart(calls);
      failed.extend(no_space.then_some(SPACE));
      failed
    };
    let of_list = [failed(&calls[0]), failed(&calls[1])];
    let mut failed = failed(&both);
    failed.extend((!alone.is_empty()).then_some(ALONE));
    Self {
      no_desk: pair.harm.is_some(),
      bad: lists.map(|list| reading::read(list).is_none()),
      failed,
      of_list,
      alone,
      calls: calls.map(|calls| calls.len()),
      left: premises.left(&both),
    }
  }

  /// Whether a join could be refused with this number.
  pub fn has(&self, number: u32) -> bool {
    match number {
      NOT_WELL_FORMED => self.no_desk,
      BAD_SHEET => self.bad.contains(&true),
      NOT_APART => self.failed.iter().any(|&check| check < ALONE),
      REFUSED_ALONE => self.failed.contains(&ALONE),
      _ => self.failed.contains(&SPACE),
    }
  }

  /// Whether both lists together fail this check and neither does alone.
  pub fn is_across(&self, check: Check) -> bool {
    self.failed.contains(&check) && self.of_list.iter().all(|failed| !failed.contains(&check))
  }
}

/// The calls of those records that keep the rules.
fn readable(list: &[u8]) -> Vec<Call> {
  let (whole, _) = split_list(list);
  let calls = whole.iter().filter_map(|record| records(&record.bytes()));
  calls.flatten().map(|(_, call)| call).collect()
}
