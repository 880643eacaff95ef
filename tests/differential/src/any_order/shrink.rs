//! A smaller sitting whose orders still differ: edits of the list, later calls and
//! calls before the list are dropped one by one.

use super::{
  Check, Premises, Sitting, Tally,
  run::{Difference, run},
  sitting::Start,
};
use crate::Core;

/// The smallest sitting found, with its difference. `sitting` must have one, and
/// fail the one check if one is named: the smaller ones then do too.
pub fn shrink<C: Core + Clone>(
  core: &C,
  mut sitting: Sitting,
  mut found: Difference,
  left_out: Option<Check>,
) -> (Sitting, Difference) {
  loop {
    let before = size(&sitting);
    for part in 0..before {
      let Some(smaller) = without(&sitting, part) else { break };
      let failed = Premises::on(&smaller.start.desk()).failed(&smaller.list);
      if !failed.iter().eq(&left_out) {
        continue;
      }
      if let Err(difference) = run(&mut core.clone(), &smaller, &mut Tally::default()) {
        (sitting, found) = (smaller, difference);
      }
    }
    if size(&sitting) == before {
      return (sitting, found);
    }
  }
}

/// How many parts can be dropped.
fn size(sitting: &Sitting) -> usize {
  sitting.list.len() + sitting.later.len() + sitting.start.calls().len()
}

/// The sitting without one of its calls.
fn without(sitting: &Sitting, part: usize) -> Option<Sitting> {
  let mut smaller = sitting.clone();
  let (list, later) = (sitting.list.len(), sitting.later.len());
  if part < list {
    smaller.list.remove(part);
    for order in &mut smaller.orders {
      order.retain(|&place| place != part);
      order.iter_mut().for_each(|place| *place -= (*place > part) as usize);
    }
    smaller.orders.dedup();
  } else if part < list + later {
    smaller.later.remove(part - list);
  } else if let Start::Opened { calls, .. } = &mut smaller.start
    && part - list - later < calls.len()
  {
    calls.remove(part - list - later);
  } else {
    return None;
  }
  Some(smaller)
}
