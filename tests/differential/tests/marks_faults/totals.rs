//! Sums of marks.

use differential::{LentRecord, layout::RECORD_MARKS};

use super::Fault;
use crate::{marks_rules::total, sitting_rules::Held};

pub const FAULTS: &[Fault] = &[
  ("the byte behind the last marks is counted", |rules| {
    rules.total = |record, held| first(record, held.marks.len() + 1);
  }),
  ("the bytes of all marks are counted", |rules| rules.total = |record, _| first(record, 200)),
  ("the last marks are not counted", |rules| {
    rules.total = |record, held| first(record, held.marks.len().saturating_sub(1));
  }),
  ("the first marks are not counted", |rules| {
    rules.total = |_, held| total(held) - held.marks.first().map_or(0, |&marks| u32::from(marks));
  }),
  ("the 200th marks are not counted", |rules| {
    rules.total = |record, held| first(record, held.marks.len().min(199));
  }),
  ("8 bits of the sum", |rules| rules.total = |_, held| total(held) & 0xff),
  ("the sum is 255 at most", |rules| rules.total = |_, held| total(held).min(255)),
  ("the sum is 100 at most", |rules| rules.total = |_, held| total(held).min(100)),
  ("13 bits of the sum", |rules| rules.total = |_, held| total(held) & 0x1fff),
  ("whole points are counted", |rules| rules.total = |_, held| total(held) / 10),
  ("the highest marks are counted", |rules| {
    rules.total = |_, held| held.marks.iter().max().map_or(0, |&marks| u32::from(marks));
  }),
  ("entries are counted", |rules| rules.total = |_, held| held.marks.len() as u32),
  ("accepted calls are counted", |rules| {
    rules.total = |_, held| with(held, |answer| answer == 0);
  }),
  ("refused calls are counted", |rules| rules.total = |_, held| with(held, |answer| answer > 0)),
  ("answers are counted", |rules| {
    rules.total = |_, held| held.answers.iter().map(|&answer| u32::from(answer)).sum();
  }),
  ("the same marks are counted once", |rules| {
    rules.total = |_, held| {
      let mut marks = held.marks.clone();
      marks.sort();
      marks.dedup();
      marks.iter().map(|&marks| u32::from(marks)).sum()
    };
  }),
];

/// The sum of the first so many bytes of marks.
fn first(record: &LentRecord, count: usize) -> u32 {
  let bytes = record.bytes.iter().skip(RECORD_MARKS).take(count.min(200));
  bytes.map(|&marks| u32::from(marks)).sum()
}

/// The sum of those whose answer is as asked for.
fn with(held: &Held, is_counted: fn(u8) -> bool) -> u32 {
  let each = held.marks.iter().zip(&held.answers);
  each.filter(|&(_, &answer)| is_counted(answer)).map(|(&marks, _)| u32::from(marks)).sum()
}
