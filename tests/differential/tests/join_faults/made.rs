//! What a join does.

use oracle::{Call, Desk};

use super::Fault;
use crate::join_rules::make;

pub const FAULTS: &[Fault] = &[
  ("the first list alone is made", |rules| {
    rules.make = |desk, [first, second]| [make(desk, first), make(&mut desk.clone(), second)];
  }),
  ("the second list alone is made", |rules| {
    rules.make = |desk, [first, second]| [make(&mut desk.clone(), first), make(desk, second)];
  }),
  ("no call is made", |rules| {
    rules.make = |desk, calls| [make(&mut desk.clone(), &calls.concat()), 0];
  }),
  ("the second list is made twice", |rules| {
    rules.make = |desk, [first, second]| {
      let cuts = [make(desk, first), make(desk, second)];
      make(desk, second);
      cuts
    };
  }),
  ("the last call is not made", |rules| {
    rules.make = |desk, calls| {
      let calls = calls.concat();
      [make(desk, &calls[..calls.len().saturating_sub(1)]), 0]
    };
  }),
  ("updates are made without overwrite", |rules| {
    rules.make = |desk, calls| {
      let mut calls = calls.concat();
      for call in &mut calls {
        if let Call::UpdateWith { overwrite, .. } = call {
          *overwrite = 0;
        }
      }
      [make(desk, &calls), 0]
    };
  }),
  ("moves are left out", |rules| {
    rules.make = |desk, calls| {
      let mut calls = calls.concat();
      calls.retain(|call| !matches!(call, Call::Relocate { .. }));
      [make(desk, &calls), 0]
    };
  }),
  ("the calls are made on a fresh desk", |rules| {
    rules.make = |desk, calls| {
      let source = desk.magic_string().source().as_bytes();
      *desk = Desk::open(desk.limits(), source).expect("the source of a desk");
      [make(desk, &calls.concat()), 0]
    };
  }),
  ("the cuts of the first list are reported", |rules| rules.value = |[first, _], _, _| first),
  ("the cuts of the second list are reported", |rules| rules.value = |[_, second], _, _| second),
  ("no cuts are reported", |rules| rules.value = |_, _, _| 0),
  ("calls are reported", |rules| rules.value = |_, _, calls| calls.concat().len() as u32),
  ("all chunks but one are reported", |rules| {
    rules.value = |_, made, _| made.counts().chunks as u32 - 1;
  }),
  ("three cuts for each call are reported", |rules| {
    rules.value = |_, _, calls| 3 * calls.concat().len() as u32;
  }),
  ("two empty lists are laid out anew", |rules| rules.lays_out = |_| true),
  ("an empty second list changes nothing", |rules| rules.lays_out = |calls| !calls[1].is_empty()),
  ("a join of two lists is only acknowledged", |rules| {
    rules.lays_out = |calls| calls.iter().filter(|list| !list.is_empty()).count() == 1;
  }),
  ("a refused join leaves the first list's calls", |rules| {
    rules.refused = |desk, [first, _]| {
      let mut left = desk.clone();
      let _ = make(&mut left, first);
      Some((left, 0))
    };
  }),
  ("a refused join leaves all calls", |rules| {
    rules.refused = |desk, calls| {
      let mut left = desk.clone();
      let _ = make(&mut left, &calls.concat());
      Some((left, 0))
    };
  }),
  ("a refused join leaves its cuts", |rules| {
    rules.refused = |desk, calls| {
      let mut left = desk.clone();
      for at in calls.iter().flatten().flat_map(Call::positions) {
        make(&mut left, &[Call::Reset { start: at, end: at.saturating_add(1) }]);
      }
      Some((left, 0))
    };
  }),
  ("a refused join is laid out anew", |rules| {
    rules.refused = |desk, _| Some((desk.clone(), 0));
  }),
  ("a refused join reports cuts", |rules| {
    rules.refused = |desk, calls| {
      let cuts = make(&mut desk.clone(), &calls.concat());
      (cuts > 0).then(|| (desk.clone(), cuts))
    };
  }),
];
