//! Cores that mark, show entries or add up wrongly in one way, or treat marks so when they file
//! and withdraw, are told.

mod marks_faults;
mod marks_rules;
mod sheet_rules;
mod sitting_rules;
mod told_sittings;

use std::time::Duration;

use differential::{
  cores::StandIn,
  marks::{Compared, Tally, compare},
};
use marks_faults::{Fault, filed, marking, members, readings, records, totals};
use marks_rules::Rules;
use sheet_rules::Wrong;
use told_sittings::{agree, each_told, told};

fn compared(rules: Rules) -> Compared {
  let mut core = Wrong { right: StandIn::new(1), rules };
  compare(&mut core, 5, 400, Duration::MAX)
}

/// The rules that the second reading begins with are the plain reading's.
#[test]
fn the_two_readings_agree() {
  agree(compared(Rules::right()), Tally::missing);
}

fn wrong_rules_are_told(faults: &[Fault]) {
  each_told(faults, Rules::right, compared);
}

#[test]
fn wrong_records_are_told() {
  wrong_rules_are_told(records::FAULTS);
}

#[test]
fn wrong_filings_and_withdrawals_are_told() {
  wrong_rules_are_told(filed::FAULTS);
}

#[test]
fn wrong_markings_are_told() {
  wrong_rules_are_told(marking::FAULTS);
}

#[test]
fn wrong_readings_are_told() {
  wrong_rules_are_told(readings::FAULTS);
}

#[test]
fn wrong_totals_are_told() {
  wrong_rules_are_told(totals::FAULTS);
}

#[test]
fn what_shows_a_member_marks_is_told() {
  wrong_rules_are_told(members::FAULTS);
}

/// What the documents leave to the core may not depend on marks either: second records tell.
#[test]
fn second_records_tell() {
  for (name, fault) in members::BY_SECOND {
    let mut rules = Rules::right();
    fault(&mut rules);
    let compared = compared(rules);
    let what = compared.different.as_ref().map(|(_, found)| found.what.as_str());
    assert!(what.is_some_and(|what| what.starts_with("beside the second record")), "{name}");
    told(name, compared);
  }
}

/// Each two grounds, the later one tested before the other.
#[test]
fn other_orders_of_refusals_are_told() {
  for [first, later] in [[0, 1], [0, 2], [1, 2]] {
    let orders: [fn(&mut Rules) -> &mut [_; 3]; 2] =
      [|rules| &mut rules.set_order, |rules| &mut rules.show_order];
    for order in orders {
      let mut rules = Rules::right();
      let order = order(&mut rules);
      order[first..=later].rotate_right(1);
      let name = format!("{order:?}");
      told(&name, compared(rules));
    }
  }
}
