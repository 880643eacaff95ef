//! Cores that freeze wrongly in one way, or what is frozen, are told.

mod frozen_faults;
mod frozen_rules;
mod sheet_rules;
mod sitting_rules;
mod told_sittings;

use std::time::Duration;

use differential::{
  cores::StandIn,
  frozen::{Compared, Tally, compare},
};
use frozen_faults::{Fault, desks, freezings, marks, ranges, records};
use frozen_rules::Rules;
use sheet_rules::Wrong;
use told_sittings::{agree, each_told, told};

fn compared(rules: Rules) -> Compared {
  let mut core = Wrong { right: StandIn::new(1), rules };
  compare(&mut core, 5, 400, Duration::MAX)
}

/// The rules that the second reading begins with are the plain reading's.
#[test]
fn the_two_readings_agree() {
  agree(compared(Rules::right()), Tally::missing);
}

fn wrong_rules_are_told(faults: &[Fault]) {
  each_told(faults, Rules::right, compared);
}

#[test]
fn wrong_marks_are_told() {
  wrong_rules_are_told(marks::FAULTS);
}

#[test]
fn wrong_ranges_are_told() {
  wrong_rules_are_told(ranges::FAULTS);
}

#[test]
fn wrong_trims_and_indents_are_told() {
  wrong_rules_are_told(desks::FAULTS);
}

#[test]
fn wrong_freezings_are_told() {
  wrong_rules_are_told(freezings::FAULTS);
}

#[test]
fn wrong_records_are_told() {
  wrong_rules_are_told(records::FAULTS);
}

/// Each two grounds of a freezing that can be due at once, the later one tested first.
#[test]
fn other_orders_of_refusals_are_told() {
  for [first, later] in freezings::TOLD {
    let mut rules = Rules::right();
    let order = &mut rules.freeze_order;
    let at = |order: &[_], ground| order.iter().position(|&other| other == ground).unwrap();
    let [first, later] = [at(order, first), at(order, later)];
    order[first..=later].rotate_right(1);
    told(&format!("{order:?}"), compared(rules));
  }
}
