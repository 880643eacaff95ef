//! Random sittings with frozen parts, each the same for the same seed.

use oracle::random::Random;

use crate::{
  made::{self, Aim, make, marked},
  sittings::{
    HARMS, KEPT_HARMS, Sitting,
    candidate::Candidate,
    random_sittings::{any_calls, fresh},
  },
};

pub fn sitting(seed: u64) -> Sitting {
  let random = &mut Random::new(seed);
  match random.below(40) {
    0 | 1 => large(random),
    2 | 3 => damaged(random),
    4 | 5 => short("random sittings, an empty source", 0, random),
    6..=13 => by_hand(random),
    14..=19 => with_record(random),
    _ => short("random sittings", random.between(1, 24), random),
  }
}

impl Candidate {
  /// So many actions, with freezings among them.
  fn any_with_freezings(&mut self, count: usize) {
    for _ in 0..count {
      match self.random.below(40) {
        0..=6 => self.freeze_any(),
        7..=16 => self.file_any(),
        17..=23 => self.withdraw_any(),
        24 => self.open_anew(),
        _ => self.make_any(),
      }
    }
  }
}

/// A fresh desk, some edits and some freezings before the others.
fn short(tries: &'static str, source: usize, random: &mut Random) -> Sitting {
  let mut candidate = Candidate::new(fresh(source, random), random);
  (0..random.below(4)).for_each(|_| candidate.make_any());
  (0..random.between(1, 3)).for_each(|_| candidate.freeze_any());
  candidate.any_with_freezings(random.between(1, 20));
  candidate.sitting(tries)
}

/// A desk made by hand with marks, and an empty record.
fn by_hand(random: &mut Random) -> Sitting {
  let desk = made::desk(random);
  let mut candidate = Candidate::new(marked(desk, random), random);
  candidate.any_with_freezings(random.between(1, 12));
  candidate.sitting("random sittings, made by hand")
}

/// The same beside a record of calls and of a desk that have nothing to do with it, but for
/// the source.
fn with_record(random: &mut Random) -> Sitting {
  let calls = any_calls(random);
  let desk = make(Aim::small(random), random);
  let kept = made::over(desk.source.clone(), Aim::small(random), random);
  let [desk, kept] = [desk, kept].map(|desk| match random.below(3) {
    0 => desk,
    _ => marked(desk, random),
  });
  let mut candidate = Candidate::new(desk, random).with_calls(calls, kept);
  candidate.any_with_freezings(random.between(1, 12));
  candidate.sitting("random sittings, a record made by hand")
}

/// A desk that holds as much as it may, or nearly, with marks: cuts and texts take it further.
fn large(random: &mut Random) -> Sitting {
  let desk = make(Aim::near_limits(random), random);
  let mut candidate = Candidate::new(marked(desk, random), random);
  for _ in 0..random.between(2, 10) {
    let call = match random.below(2) {
      0 => candidate.caller.to_most_chunks(),
      _ => candidate.caller.with_text_of(candidate.caller.bytes_left()),
    };
    match random.below(3) {
      0 => candidate.file(call),
      _ => candidate.make(call),
    }
    candidate.freeze_any();
  }
  candidate.any_with_freezings(4);
  candidate.sitting("random sittings, large desks")
}

/// The desk is none, or the record, whose kept desk is harmed.
fn damaged(random: &mut Random) -> Sitting {
  let mut sitting = with_record(random);
  match random.below(3) {
    0 => sitting.harm = Some(HARMS[random.below(HARMS.len())]),
    _ => sitting.record.harm = Some(KEPT_HARMS[random.below(KEPT_HARMS.len())]),
  }
  Sitting { tries: "random sittings, damaged", ..sitting.without_openings() }
}
