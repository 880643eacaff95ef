//! Random sittings with an examiner, each the same for the same seed.

use oracle::random::Random;

use super::marked::MARKS;
use crate::{
  joins::lists_on,
  made::{self, Aim, make, marked},
  papers::in_sheet::{self, InSheet},
  sheets::fields::Fields,
  sittings::{
    Action, HARMS, KEPT_HARMS, Sitting,
    candidate::Candidate,
    random_sittings::{any_calls, fresh},
    reading::{MOST_CALLS, MOST_MARKS, Reader, shown},
  },
};

pub fn sitting(seed: u64) -> Sitting {
  let random = &mut Random::new(seed);
  let sitting = match random.below(40) {
    0 => many_calls(random),
    1..=4 => return damaged(random),
    5 | 6 => short("random sittings, an empty source", 0, random),
    7..=16 => with_record(random),
    _ => short("random sittings", random.between(1, 24), random),
  };
  Sitting { other_marks: Some(other_marks(random)), ..sitting }
}

/// None, or any that a record can have.
fn other_marks(random: &mut Random) -> Vec<u8> {
  match random.below(3) {
    0 => vec![0; MOST_CALLS],
    1 => vec![MOST_MARKS; MOST_CALLS],
    _ => (0..MOST_CALLS).map(|_| random.between(0, MOST_MARKS.into()) as u8).collect(),
  }
}

impl Candidate {
  /// So many actions of a member and an examiner.
  fn any_of_both(&mut self, count: usize) {
    for _ in 0..count {
      match self.random.below(40) {
        0..=9 => self.file_any(),
        10..=14 => self.withdraw_any(),
        15..=22 => self.mark_any(),
        23..=28 => self.show_any(),
        29 | 30 => self.act(Action::Total),
        31 => self.freeze_any(),
        32 => self.join_any(),
        33 => self.run_any_sheet(),
        34 => self.act(Action::WellFormed),
        35 => self.open_anew(),
        _ => self.make_any(),
      }
    }
  }

  /// Most often one that is filed.
  fn any_number(&mut self) -> u32 {
    let count = self.record.entries.len() as u32;
    let any = self.random.between(1, count.max(1) as usize) as u32;
    let others = [0, count + 1, count + 0x100, u32::MAX];
    [any, any, any, 1, count, others[self.random.below(4)]][self.random.below(6)]
  }

  fn mark_any(&mut self) {
    let k = self.any_number();
    let any = self.random.between(0, MOST_MARKS.into()) as u32;
    let other = MARKS[self.random.below(MARKS.len())];
    let marks = [any, any, other][self.random.below(3)];
    self.act(Action::SetMarks { k, marks });
  }

  /// With room for it, most often, or just, or for a byte less.
  fn show_any(&mut self) {
    let k = self.any_number();
    let reader = [Reader::Member, Reader::Member, Reader::Examiner][self.random.below(3)];
    let entry = self.record.entries.get((k as usize).wrapping_sub(1));
    let needed = entry.map_or(0, |entry| shown(entry, reader).len());
    let less = needed.saturating_sub(1);
    let more = needed + self.random.below(100);
    let room = [needed, needed, more, more, less, 0][self.random.below(6)];
    self.act(Action::Show { reader, k, room });
  }

  fn join_any(&mut self) {
    let desk = self.caller.change(|desk| desk.data());
    let lists = lists_on(&desk, &mut self.random);
    self.act(Action::Join(lists));
  }

  /// Over the source of the desk, most often.
  fn run_any_sheet(&mut self) {
    let InSheet { mut source, calls, .. } = in_sheet::paper(&mut self.random);
    if !self.random.one_in(4) {
      source = self.caller.change(|desk| desk.magic_string().source().as_bytes().to_vec());
    }
    let calls = &calls[..calls.len().min(8)];
    let room = (calls.len() + self.random.below(4)).saturating_sub(1);
    let sheet = Fields::of(&source, calls).bytes();
    self.act(Action::RunSheet { sheet, room });
  }
}

/// A fresh desk and a record without calls.
fn short(tries: &'static str, source: usize, random: &mut Random) -> Sitting {
  let mut candidate = Candidate::new(fresh(source, random), random);
  (0..random.below(3)).for_each(|_| candidate.make_any());
  (0..random.below(6)).for_each(|_| candidate.file_any());
  candidate.any_of_both(random.between(1, 24));
  candidate.sitting(tries)
}

/// A desk made by hand beside a record of calls and of a desk that have nothing to do with it,
/// but for the source.
fn with_record(random: &mut Random) -> Sitting {
  let calls = any_calls(random);
  let desk = make(Aim::small(random), random);
  let kept = made::over(desk.source.clone(), Aim::small(random), random);
  let [desk, kept] = [desk, kept].map(|desk| match random.below(3) {
    0 => marked(desk, random),
    _ => desk,
  });
  let mut candidate = Candidate::new(desk, random).with_calls(calls, kept);
  candidate.any_of_both(random.between(1, 14));
  candidate.sitting("random sittings, a record made by hand")
}

/// As many calls as there may be, most of them with marks.
fn many_calls(random: &mut Random) -> Sitting {
  let mut candidate = Candidate::new(fresh(random.between(1, 400), random), random);
  while candidate.record.entries.len() < MOST_CALLS {
    candidate.file_any();
    if random.one_in(2) {
      let k = candidate.record.entries.len() as u32;
      candidate.act(Action::SetMarks { k, marks: random.between(0, MOST_MARKS.into()) as u32 });
    }
  }
  candidate.any_of_both(16);
  candidate.sitting("random sittings, many calls")
}

/// The record is none, by its marks, its used bytes or its kept desk; or it is one all the
/// same; or the desk is none.
fn damaged(random: &mut Random) -> Sitting {
  let mut sitting = with_record(random);
  let record = &mut sitting.record;
  match random.below(6) {
    0 => sitting.harm = Some(HARMS[random.below(HARMS.len())]),
    1 => record.harm = Some(KEPT_HARMS[random.below(KEPT_HARMS.len())]),
    2 => record.used = random.between(0, record.calls.len() + 3) as u32,
    _ => {
      record.marks = other_marks(random);
      for _ in 0..random.between(1, 3) {
        let most = [1, 4, 12, MOST_CALLS][random.below(4)];
        record.marks[random.below(most)] = random.between(95, 255) as u8;
      }
    }
  }
  Sitting { tries: "random sittings, damaged", ..sitting.without_openings() }
}
