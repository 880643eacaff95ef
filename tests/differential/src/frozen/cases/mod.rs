//! The cases that must be met.

mod freezings;
mod marks;
mod records;
mod refusals;

use oracle::Desk;

use crate::sittings::{Action, Case, Cases, Seen};

/// Those of frozen parts.
#[derive(Debug, Clone, Default)]
pub struct OfFrozen;

impl Cases for OfFrozen {
  fn of(seen: &Seen) -> Vec<Case> {
    let mut cases = Vec::new();
    let mut add = |name: String, is_met: bool| cases.push((name, is_met));
    refusals::add(seen, &mut add);
    freezings::add(seen, &mut add);
    marks::add(seen, &mut add);
    records::filed(seen, &mut add);
    records::lent(seen, &mut add);
    cases
  }
}

fn is_filing(seen: &Seen) -> bool {
  matches!(seen.action, Action::File(_))
}

fn has_marks(desk: &Desk) -> bool {
  desk.marks().any()
}
