//! Random sittings, each the same for the same seed.

use oracle::{Call, DeskData, random::Random};

use super::{
  HARMS, KEPT_HARMS, Sitting,
  candidate::{Candidate, is_short},
  reading::{self, MOST_CALLS, MOST_TEXT},
};
use crate::{
  made::{self, Aim, make},
  papers::Caller,
};

pub fn sitting(seed: u64) -> Sitting {
  let random = &mut Random::new(seed);
  match random.below(80) {
    0 => many_calls(random),
    1 => many_chunks(random),
    2 | 3 => many_bytes(random),
    4..=9 => short("random sittings, an empty source", 0, random),
    10..=24 => by_hand(random),
    25..=27 => damaged(random),
    28 | 29 => large(random),
    _ => short("random sittings", random.between(1, 24), random),
  }
}

/// A fresh desk over a source of so many bytes.
pub fn fresh(source: usize, random: &mut Random) -> DeskData {
  super::fresh(&made::text(source, random))
}

fn short(tries: &'static str, source: usize, random: &mut Random) -> Sitting {
  let mut candidate = Candidate::new(fresh(source, random), random);
  candidate.any(random.between(1, 30));
  candidate.sitting(tries)
}

/// Any desk, and a record of calls and of a desk that have nothing to do with it.
fn by_hand(random: &mut Random) -> Sitting {
  let calls = any_calls(random);
  let desk = made::desk(random);
  let kept = made::over(desk.source.clone(), Aim::any(random), random);
  let mut candidate = Candidate::new(desk, random).with_calls(calls, kept);
  candidate.any(random.between(1, 12));
  candidate.sitting("random sittings, made by hand")
}

/// Calls on another desk, with no more text than a record has.
pub fn any_calls(random: &mut Random) -> Vec<Call> {
  let mut other = Caller::new(made::desk(random), random.number());
  let count = [0, 1, 3, random.below(12), random.below(40)][random.below(5)];
  let mut calls: Vec<Call> = (0..count).map(|_| other.in_sheet()).collect();
  let mut left = MOST_TEXT;
  for text in calls.iter_mut().filter_map(Call::text_mut) {
    text.truncate(left);
    left -= text.len();
  }
  calls
}

/// A desk that holds as much as it may, or nearly, and calls that take it further.
fn large(random: &mut Random) -> Sitting {
  let aim = Aim::near_limits(random);
  let mut candidate = Candidate::new(make(aim, random), random);
  for _ in 0..random.between(2, 10) {
    let call = match random.below(2) {
      0 => candidate.caller.to_most_chunks(),
      _ => candidate.caller.with_text_of(candidate.caller.bytes_left()),
    };
    candidate.file(call);
  }
  candidate.any(4);
  candidate.sitting("random sittings, large desks")
}

/// The desk or the record is none, or both: one word or byte of a record is changed, or the
/// kept desk is harmed.
fn damaged(random: &mut Random) -> Sitting {
  let desk = make(Aim::small(random), random);
  let mut caller = Caller::new(desk.clone(), random.number());
  let calls: Vec<Call> =
    (0..random.between(1, 8)).map(|_| caller.in_sheet()).filter(is_short).collect();
  let kept = made::over(desk.source.clone(), Aim::small(random), random);
  let mut candidate = Candidate::new(desk, random).with_calls(calls, kept);
  candidate.any(4);
  let mut sitting = candidate.sitting("random sittings, damaged");
  let record = &mut sitting.record;
  match random.below(5) {
    0 => record.used = random.between(0, record.calls.len() + 20) as u32,
    3 => record.harm = Some(KEPT_HARMS[random.below(KEPT_HARMS.len())]),
    1 | 2 if !record.calls.is_empty() => {
      let place = random.below(record.calls.len());
      record.calls[place] ^= 1 << random.below(8);
    }
    _ => sitting.harm = Some(HARMS[random.below(HARMS.len())]),
  }
  sitting.without_openings()
}

/// As many calls as there may be, and some more, with withdrawals between them.
fn many_calls(random: &mut Random) -> Sitting {
  let mut candidate = Candidate::new(fresh(random.between(1, 2_000), random), random);
  let mut once = 0;
  while candidate.record.entries.len() < MOST_CALLS {
    candidate.file_any();
    once += 1;
    if once % 50 == 0 {
      candidate.withdraw_any();
    }
  }
  candidate.any(12);
  candidate.sitting("random sittings, many calls")
}

/// Up to the most chunks by moves that cut three times, and other calls there.
fn many_chunks(random: &mut Random) -> Sitting {
  let desk = fresh(random.between(2_000, 6_000), random);
  let mut candidate = Candidate::new(desk, random);
  while candidate.record.entries.len() + 10 < MOST_CALLS {
    let call = candidate.caller.to_most_chunks();
    candidate.file(call);
  }
  candidate.any(12);
  candidate.sitting("random sittings, many chunks")
}

/// Texts that use up the bytes of the record, or one more; the desk's too, by edits that
/// are not filed.
fn many_bytes(random: &mut Random) -> Sitting {
  let mut candidate = Candidate::new(fresh(random.between(1, 40), random), random);
  for _ in 0..random.between(4, 30) {
    let left = match random.below(2) {
      0 => MOST_TEXT - reading::texts(&candidate.record.entries),
      _ => candidate.caller.bytes_left(),
    };
    let call = candidate.caller.with_text_of(left);
    match random.below(6) {
      0 => candidate.make(call),
      1 => candidate.withdraw_any(),
      _ => candidate.file(call),
    }
  }
  candidate.sitting("random sittings, many bytes")
}
