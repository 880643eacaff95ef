//! What calls are taken to be accepted alone.

use oracle::{Call, Desk, Limits, apply};

use super::Fault;
use crate::join_rules::{Ground, accepted};

pub const FAULTS: &[Fault] = &[
  ("the second list is not tried", |rules| {
    rules.alone = |desk, calls| calls[0].iter().all(|call| accepted(desk, call));
  }),
  ("the first list is not tried", |rules| {
    rules.alone = |desk, calls| calls[1].iter().all(|call| accepted(desk, call));
  }),
  ("no call is tried", |rules| rules.alone = |_, _| true),
  ("the first call of each list is tried", |rules| {
    rules.alone =
      |desk, calls| calls.iter().filter_map(|list| list.first()).all(|call| accepted(desk, call));
  }),
  ("the last call of each list is not tried", |rules| {
    rules.alone = |desk, calls| {
      let mut tried = calls.iter().flat_map(|list| &list[..list.len().saturating_sub(1)]);
      tried.all(|call| accepted(desk, call))
    };
  }),
  ("calls are tried one after the other", |rules| {
    rules.alone = |desk, calls| in_turn(&mut desk.clone(), &calls.concat());
  }),
  ("the calls of each list are tried one after the other", |rules| {
    rules.alone = |desk, calls| calls.iter().all(|list| in_turn(&mut desk.clone(), list));
  }),
  ("the second list is tried behind the first", |rules| {
    rules.alone = |desk, [first, second]| {
      let mut behind = desk.clone();
      in_turn(&mut behind, first);
      first.iter().all(|call| accepted(desk, call))
        && second.iter().all(|call| accepted(&behind, call))
    };
  }),
  ("calls are tried on a fresh desk", |rules| {
    rules.alone = |desk, calls| {
      let source = desk.magic_string().source().as_bytes();
      let fresh = Desk::open(Limits::FULL, source).expect("the source of a desk");
      calls.iter().flatten().all(|call| accepted(&fresh, call))
    };
  }),
  ("a call past a limit alone is 13", |rules| {
    rules.number = |ground, desk, calls| match ground {
      Ground::NoDesk => 2,
      Ground::BadList => 16,
      Ground::NotApart => 18,
      Ground::RefusedAlone => first_number(desk, &calls.concat(), |number| number == 13, 19),
      Ground::NoSpace => 13,
    };
  }),
  ("a call's own number is given", |rules| {
    rules.number = |ground, desk, calls| match ground {
      Ground::NoDesk => 2,
      Ground::BadList => 16,
      Ground::NotApart => 18,
      Ground::RefusedAlone => first_number(desk, &calls.concat(), |_| true, 19),
      Ground::NoSpace => 13,
    };
  }),
  ("a limit is not a refusal", |rules| {
    rules.alone = |desk, calls| refused_with(desk, &calls.concat(), |number| number != 13);
  }),
  ("a text that is not UTF-8 is not a refusal", |rules| {
    rules.alone = |desk, calls| refused_with(desk, &calls.concat(), |number| number != 1);
  }),
  ("a position inside a character is not a refusal", |rules| {
    rules.alone = |desk, calls| refused_with(desk, &calls.concat(), |number| number != 3);
  }),
  ("a cut in a replacement is not a refusal", |rules| {
    rules.alone = |desk, calls| refused_with(desk, &calls.concat(), |number| number != 6);
  }),
  ("an edge that was moved is not a refusal", |rules| {
    rules.alone = |desk, calls| refused_with(desk, &calls.concat(), |number| number != 7);
  }),
  ("a range that is not together is not a refusal", |rules| {
    rules.alone = |desk, calls| refused_with(desk, &calls.concat(), |number| number != 9);
  }),
  ("a move into itself is not a refusal", |rules| {
    rules.alone = |desk, calls| refused_with(desk, &calls.concat(), |number| number != 8);
  }),
  ("a frozen chunk is not a refusal", |rules| {
    rules.alone = |desk, calls| refused_with(desk, &calls.concat(), |number| number != 20);
  }),
  ("a move whose end comes first is not a refusal", |rules| {
    rules.alone = |desk, calls| refused_with(desk, &calls.concat(), |number| number != 4);
  }),
];

/// Whether each is accepted on what those before it leave.
fn in_turn(desk: &mut Desk, calls: &[Call]) -> bool {
  calls.iter().all(|call| apply(desk, call).number == 0)
}

/// The number of the first call that is refused alone, if it is one of these.
fn first_number(desk: &Desk, calls: &[Call], these: fn(u32) -> bool, other: u32) -> u32 {
  let mut numbers = calls.iter().map(|call| apply(&mut desk.clone(), call).number);
  numbers.find(|&number| number != 0).filter(|&number| these(number)).unwrap_or(other)
}

/// Whether no call is refused with one of these.
fn refused_with(desk: &Desk, calls: &[Call], these: fn(u32) -> bool) -> bool {
  let mut numbers = calls.iter().map(|call| apply(&mut desk.clone(), call).number);
  numbers.all(|number| number == 0 || !these(number))
}
