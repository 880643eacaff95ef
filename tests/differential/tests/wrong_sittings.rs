//! Cores that file or withdraw wrongly in one way are told.

mod sheet_rules;
mod sitting_faults;
mod sitting_rules;
mod told_sittings;

use std::time::Duration;

use differential::{
  cores::StandIn,
  damage::{self, Judge},
  sittings::{Compared, Tally, compare},
};
use sheet_rules::Wrong;
use sitting_faults::{Fault, filings, records, withdrawals};
use sitting_rules::Rules;
use told_sittings::{agree, each_told, told};

fn compared(rules: Rules) -> Compared {
  let mut core = Wrong { right: StandIn::new(1), rules };
  compare(&mut core, 5, 400, Duration::MAX)
}

/// The rules that the second reading begins with are the plain reading's.
#[test]
fn the_two_readings_agree() {
  agree(compared(Rules::right()), Tally::missing);
}

fn wrong_rules_are_told(faults: &[Fault]) {
  each_told(faults, Rules::right, compared);
}

#[test]
fn wrong_records_are_told() {
  wrong_rules_are_told(records::FAULTS);
}

#[test]
fn wrong_filings_are_told() {
  wrong_rules_are_told(filings::FAULTS);
}

#[test]
fn wrong_withdrawals_are_told() {
  wrong_rules_are_told(withdrawals::FAULTS);
}

/// Each two grounds, the later one tested before the other; but a desk and a record that
/// are none have the same number.
#[test]
fn other_orders_of_refusals_are_told() {
  for first in 0..5 {
    for later in (first + 1).max(2)..5 {
      let mut rules = Rules::right();
      rules.file_order[first..=later].rotate_right(1);
      told(&format!("{:?}", rules.file_order), compared(rules));
    }
  }
  for first in 0..2 {
    let mut rules = Rules::right();
    rules.withdraw_order[first..].rotate_right(1);
    told(&format!("{:?}", rules.withdraw_order), compared(rules));
  }
}

/// Damaged memory tells calls that do not look at the desk first.
#[test]
fn damage_tells_what_is_looked_at_first() {
  let orders: [fn(&mut Rules); 2] =
    [|rules| rules.file_order[..3].rotate_right(1), |rules| rules.withdraw_order.rotate_right(1)];
  for order in orders {
    let mut core = Wrong { right: StandIn::new(1), rules: Rules::right() };
    order(&mut core.rules);
    assert!(damage::all(&mut Judge::new(&mut core, 6), 6).is_err());
  }
}
