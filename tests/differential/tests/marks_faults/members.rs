//! What a member could learn marks from: by the plain reading, and by nothing but a second
//! record, where the documents leave the core a choice.

use differential::layout::*;

use super::Fault;
use crate::{
  marks_rules::total,
  sitting_rules::{Held, Rules, put_all},
};

pub const FAULTS: &[Fault] = &[
  ("a withdrawal reports the marks that it takes out", |rules| {
    rules.withdrawn = |held, place| held.marks[place].into();
  }),
  ("a withdrawal reports the marks that are left", |rules| {
    rules.withdrawn = |held, place| total(held) - u32::from(held.marks[place]);
  }),
  ("filing and withdrawing take no record with the highest marks", |rules| {
    rules.record.fits = |_, held| held.marks.iter().all(|&marks| marks < 100);
  }),
  ("the cuts of a filing beside marks are not reported", |rules| {
    rules.record.value = |given, held| if total(held) == 0 { given.value } else { 0 };
  }),
  ("a call beside marks is filed with another answer", |rules| {
    rules.record.put_filed = |record, before, held| {
      put_all(record, before, held);
      if total(before) > 0 {
        record.bytes[RECORD_ANSWERS + before.answers.len()] ^= 1;
      }
    };
  }),
  ("marks give a record less room", |rules| {
    rules.record.fits = |record, held| {
      (Rules::right().fits)(record, held) && (held.calls.len() < 200 || total(held) == 0)
    };
  }),
  ("an entry with marks is shown as accepted", |rules| {
    rules.member = |_, held, place| {
      let answer = if held.marks[place] > 0 { 0 } else { held.answers[place] };
      [&held.calls[place].0[..], &[answer]].concat()
    };
  }),
];

/// Told by the second record alone: in what a withdrawal frees, and in where the desk's rows
/// and texts lie.
pub const BY_SECOND: &[Fault] = &[
  ("the marks that are taken out stay in the freed answer", |rules| {
    rules.record.put_withdrawn = |record, before, held| {
      put_all(record, before, held);
      let taken = total(before) - total(held);
      record.bytes[RECORD_ANSWERS + held.answers.len()] = taken as u8;
    };
  }),
  ("marks stay in the freed bytes of calls", |rules| {
    rules.record.put_withdrawn = |record, before, held| {
      put_all(record, before, held);
      record.bytes[used(held)..used(before)].fill(total(before) as u8);
    };
  }),
  ("the memory of a desk depends on marks", |rules| {
    rules.laid_out = |held| Some(u64::from(total(held)));
  }),
];

/// The bytes of all calls.
fn used(held: &Held) -> usize {
  held.calls.iter().map(|(bytes, _)| bytes.len()).sum()
}
