//! Cores that join wrongly in one way are told.

mod join_faults;
mod join_rules;
mod sheet_rules;

use std::time::Duration;

use differential::{
  cores::StandIn,
  damage::{self, Judge},
  joins::{Compared, Lists, chosen, compare, compare_on, reading::read},
};
use join_faults::{Fault, alone, apart, lists, made, space};
use join_rules::{Rules, make};
use sheet_rules::Wrong;

fn compared(rules: Rules) -> Compared {
  let mut core = Wrong { right: StandIn::new(1), rules };
  compare(&mut core, 5, 400, Duration::MAX)
}

/// The rules are told by lists with at most so many calls.
fn told(name: &str, rules: Rules, most: usize) {
  told_in(compared(rules), name, most);
}

fn told_in(compared: Compared, name: &str, most: usize) {
  let Compared { tally, different } = compared;
  let (pair, found) = different.unwrap_or_else(|| panic!("not told: {name}"));
  let calls = calls(&pair.lists);
  println!("{name}: after {} pairs, {}, {calls} calls, {found}", tally.pairs, pair.tries);
  assert!(calls <= most, "{name}\n{pair}{found}");
}

/// The calls of lists that keep the rules.
fn calls(lists: &Lists) -> usize {
  lists.slices().map(|list| read(list).map_or(0, |calls| calls.len())).iter().sum()
}

fn wrong_rules_are_told(faults: &[Fault], most: usize) {
  for &(name, fault) in faults {
    let mut rules = Rules::right();
    fault(&mut rules);
    told(name, rules, most);
  }
}

/// The same by the chosen pairs alone, from the first that tries this.
fn wrong_rules_are_told_from(tries: &str, faults: &[Fault], most: usize) {
  for &(name, fault) in faults {
    let mut core = Wrong { right: StandIn::new(1), rules: Rules::right() };
    fault(&mut core.rules);
    let pairs = chosen(5).skip_while(|pair| pair.tries != tries);
    told_in(compare_on(pairs, &mut core), name, most);
  }
}

/// The rules that the second reading begins with are the plain reading's.
#[test]
fn the_two_readings_agree() {
  agrees(Rules::right());
}

/// The calls of the second list may be made before those of the first, and each list's
/// backward: nothing tells.
#[test]
fn other_orders_of_the_calls_agree() {
  let mut rules = Rules::right();
  rules.make = |desk, [first, second]| [make(desk, second), make(desk, first)];
  agrees(rules.clone());
  rules.make = |desk, calls| {
    let mut calls = calls.concat();
    calls.reverse();
    [make(desk, &calls), 0]
  };
  agrees(rules);
}

fn agrees(rules: Rules) {
  let Compared { tally, different } = compared(rules);
  if let Some((pair, found)) = different {
    panic!("{pair}{found}");
  }
  assert_eq!(tally.missing(), Vec::<String>::new());
}

#[test]
fn wrong_reaches_are_told() {
  wrong_rules_are_told(apart::FAULTS, 3);
}

#[test]
fn calls_that_are_not_tried_alone_are_told() {
  wrong_rules_are_told(alone::FAULTS, 3);
}

#[test]
fn wrong_space_is_told() {
  wrong_rules_are_told_from("the chunks used up", space::FAULTS, 5);
}

#[test]
fn wrong_lists_are_told() {
  wrong_rules_are_told_from("lists that break a rule", lists::FAULTS, 402);
}

#[test]
fn wrong_joins_are_told() {
  wrong_rules_are_told(made::FAULTS, 3);
}

/// Each two grounds, the later one tested before the other.
#[test]
fn other_orders_of_refusals_are_told() {
  for first in 0..5 {
    for later in first + 1..5 {
      let mut rules = Rules::right();
      rules.order[first..=later].rotate_right(1);
      told(&format!("{:?}", rules.order), rules, 5);
    }
  }
}

/// Damaged memory tells a join that does not look at the desk first.
#[test]
fn damage_tells_what_is_looked_at_first() {
  for later in 1..5 {
    let mut core = Wrong { right: StandIn::new(1), rules: Rules::right() };
    core.rules.order[..=later].rotate_right(1);
    assert!(damage::all(&mut Judge::new(&mut core, 6), 6).is_err());
  }
}
