//! Cores whose limits are wrong by one, or judged at the wrong time, are caught:
//! the papers reach each limit, and one past it.

use std::time::Duration;

use differential::{
  Answer, Core, Lent, Unseen, compare::compare, cores::StandIn, image, layout::*,
};
use oracle::{Call, Counts, Desk, Limits, apply, number::*};

/// A call on a desk, with what the desk held before, what it would hold without
/// limits, and the numbers with and without them.
struct Judged<'a> {
  desk: &'a Desk,
  call: &'a Call,
  before: Counts,
  after: Counts,
  without_limits: u32,
  right: u32,
}

/// The number that a wrong core gives.
type Fault = fn(&Judged) -> u32;

#[derive(Clone)]
struct Wrong {
  right: StandIn,
  fault: Fault,
}

impl Core for Wrong {
  fn name(&self) -> &'static str {
    "wrong"
  }

  fn call(&mut self, lent: &mut Lent, call: &Call, unseen: &Unseen, out: &mut [u8]) -> Answer {
    let is_desk = self.well_formed(lent) == Answer::ACCEPTED;
    if !is_desk || !call.is_edit() || matches!(call, Call::Open { .. }) {
      return self.right.call(lent, call, unseen, out);
    }
    let data = image::decode(lent.source, lent.chunks, lent.pieces, lent.store);
    let desk = Desk::build(Limits::FULL, &data);
    let mut left = Desk::build(Limits::NONE, &data);
    let without_limits = apply(&mut left, call).number;
    let right = self.right.call(lent, call, unseen, out);
    let (before, after) = (desk.counts(), left.counts());
    let judged = Judged { desk: &desk, call, before, after, without_limits, right: right.number };
    Answer { number: (self.fault)(&judged), ..right }
  }

  fn well_formed(&mut self, lent: &Lent) -> Answer {
    self.right.well_formed(lent)
  }
}

impl Judged<'_> {
  fn right_unless(&self, wrong: bool, number: u32) -> u32 {
    if wrong { number } else { self.right }
  }

  /// 13 where a limit is just reached.
  fn narrow(&self, count: fn(&Counts) -> usize, limit: usize) -> u32 {
    let reached = count(&self.after) == limit && count(&self.before) != limit;
    self.right_unless(self.right != LIMIT && reached, LIMIT)
  }

  /// No 13 where a limit is passed by one, and no other is.
  fn wide(&self, count: fn(&Counts) -> usize, limit: usize) -> u32 {
    let others = [self.after.chunks <= 512, self.after.pieces <= 1_024, self.after.bytes <= 32_768];
    let one_past = count(&self.after) == limit + 1;
    let alone = others.iter().filter(|holds| !**holds).count() == 1;
    self.right_unless(one_past && alone, self.without_limits)
  }

  /// The call's own number where the cuts that stay are too many.
  fn own_number(&self, number: u32) -> u32 {
    self.right_unless(self.without_limits == number, number)
  }

  fn has_long_text(&self) -> bool {
    self.call.text().is_some_and(|text| self.before.bytes + text.len() > MOST_BYTES)
  }
}

const FAULTS: [(&str, Fault); 15] = [
  ("511 chunks at most", |judged| judged.narrow(|counts| counts.chunks, MOST_CHUNKS)),
  ("1,023 pieces at most", |judged| judged.narrow(|counts| counts.pieces, MOST_PIECES)),
  ("32,767 bytes at most", |judged| judged.narrow(|counts| counts.bytes, MOST_BYTES)),
  ("513 chunks at most", |judged| judged.wide(|counts| counts.chunks, MOST_CHUNKS)),
  ("1,025 pieces at most", |judged| judged.wide(|counts| counts.pieces, MOST_PIECES)),
  ("32,769 bytes at most", |judged| judged.wide(|counts| counts.bytes, MOST_BYTES)),
  ("6 with too many chunks", |judged| judged.own_number(CUT_IN_REPLACEMENT)),
  ("7 with too many chunks", |judged| judged.own_number(ACROSS_MOVED_EDGE)),
  ("9 with too many chunks", |judged| judged.own_number(NOT_TOGETHER)),
  ("10 with too many chunks", |judged| judged.own_number(PAST_SOURCE)),
  ("an insertion's 6 made a cut", |judged| {
    let refused = judged.right == CUT_IN_REPLACEMENT && judged.before.chunks == MOST_CHUNKS;
    let inserts = !matches!(judged.call, Call::UpdateWith { .. }) && judged.call.text().is_some();
    judged.right_unless(refused && inserts, LIMIT)
  }),
  ("an update frees no bytes first", |judged| {
    let replaces = matches!(judged.call, Call::UpdateWith { .. }) && judged.right == ACCEPTED;
    judged.right_unless(replaces && judged.has_long_text(), LIMIT)
  }),
  ("a refusal counts the text that it leaves out", |judged| {
    let refused = [4, 5, 6, 7, 10].contains(&judged.right);
    judged.right_unless(refused && judged.has_long_text(), LIMIT)
  }),
  ("a trim is judged after its first half", |judged| {
    let Call::Trim { pattern } = *judged.call else { return judged.right };
    let half = apply(&mut judged.desk.clone(), &Call::TrimStart { pattern }).number;
    judged.right_unless(half == LIMIT, LIMIT)
  }),
  ("an empty piece is not counted", |judged| {
    let inserts = judged.call.text().is_some_and(<[u8]>::is_empty);
    let full = judged.right == LIMIT && judged.after.pieces == MOST_PIECES + 1;
    judged.right_unless(inserts && full, ACCEPTED)
  }),
];

#[test]
fn wrong_limits_are_caught() {
  for (name, fault) in FAULTS {
    let mut core = Wrong { right: StandIn::new(1), fault };
    let compared = compare(&mut core, 6, 100_000, Duration::MAX);
    println!("{name}: {} calls", compared.tally.calls);
    assert!(compared.different.is_some(), "not caught: {name}");
  }
}
