//! Marks that are written, and that are not.

use differential::layout::{RECORD_ANSWERS, RECORD_MARKS};

use super::Fault;
use crate::marks_rules::{Rules, set};

pub const FAULTS: &[Fault] = &[
  ("101 is written", |rules| rules.too_high = |marks| marks > 101),
  ("100 is too high", |rules| rules.too_high = |marks| marks >= 100),
  ("0 is refused", |rules| rules.too_high = |marks| marks == 0 || marks > 100),
  ("marks above 255 are too high", |rules| rules.too_high = |marks| marks > 255),
  ("8 bits of marks", |rules| rules.too_high = |marks| marks & 0xff > 100),
  ("16 bits of marks", |rules| rules.too_high = |marks| marks & 0xffff > 100),
  ("marks are signed", |rules| rules.too_high = |marks| marks as i32 > 100),
  ("higher marks are the highest", |rules| {
    rules.too_high = |_| false;
    rules.set = |record, held, place, marks| set(record, held, place, marks.min(100));
  }),
  ("marks that are too high write the highest", |rules| {
    rules.refused = |record, held| {
      record.bytes[RECORD_MARKS..][..held.marks.len()]
        .iter_mut()
        .take(2)
        .for_each(|byte| *byte = 100);
    };
  }),
  ("marks that are too high clear all", |rules| {
    rules.refused = |record, held| record.bytes[RECORD_MARKS..][..held.marks.len()].fill(0);
  }),
  ("entries are counted from 0", |rules| {
    rules.place = |k, count| Some(k as usize).filter(|&place| place < count);
  }),
  ("0 is the first", |rules| {
    rules.place = |k, count| Some((k as usize).saturating_sub(1)).filter(|&place| place < count);
  }),
  ("a number above the count is the last", |rules| {
    rules.place = |k, count| (k as usize).min(count).checked_sub(1);
  }),
  ("8 bits of the number", |rules| {
    rules.place = |k, count| (Rules::right().place)(k & 0xff, count);
  }),
  ("16 bits of the number", |rules| {
    rules.place = |k, count| (Rules::right().place)(k & 0xffff, count);
  }),
  ("31 bits of the number", |rules| {
    rules.place = |k, count| (Rules::right().place)(k & 0x7fff_ffff, count);
  }),
  ("entries are counted from the last", |rules| {
    rules.place = |k, count| (Rules::right().place)(k, count).map(|place| count - 1 - place);
  }),
  ("the last entry is none", |rules| {
    rules.place = |k, count| (Rules::right().place)(k, count).filter(|&place| place + 1 < count);
  }),
  ("200 entries have no last", |rules| {
    rules.place = |k, count| (Rules::right().place)(k, count).filter(|&place| place < 199);
  }),
  ("the marks of the next are written", |rules| {
    rules.set = |record, held, place, marks| set(record, held, place + 1, marks);
  }),
  ("the marks of the first are written", |rules| {
    rules.set = |record, held, _, marks| set(record, held, 0, marks);
  }),
  ("the marks of all are written", |rules| {
    rules.set = |record, held, _, marks| {
      (0..held.marks.len()).for_each(|place| set(record, held, place, marks));
    };
  }),
  ("the marks of those behind are cleared", |rules| {
    rules.set = |record, held, place, marks| {
      (place..held.marks.len()).for_each(|place| set(record, held, place, 0));
      set(record, held, place, marks);
    };
  }),
  ("the byte behind the last marks is cleared", |rules| {
    rules.set = |record, held, place, marks| {
      set(record, held, place, marks);
      record.bytes[RECORD_MARKS + held.marks.len()] = 0;
    };
  }),
  ("the answer is written", |rules| {
    rules.set = |record, _, place, marks| record.bytes[RECORD_ANSWERS + place] = marks as u8;
  }),
  ("the answer is written too", |rules| {
    rules.set = |record, held, place, marks| {
      set(record, held, place, marks);
      record.bytes[RECORD_ANSWERS + place] = 0;
    };
  }),
  ("nothing is written", |rules| rules.set = |_, _, _, _| ()),
  ("marks are added", |rules| {
    rules.set = |record, held, place, marks| {
      set(record, held, place, (u32::from(held.marks[place]) + marks).min(100));
    };
  }),
  ("marks are never lowered", |rules| {
    rules.set = |record, held, place, marks| {
      set(record, held, place, marks.max(held.marks[place].into()));
    };
  }),
  ("marks are written once", |rules| {
    rules.set = |record, held, place, marks| {
      if held.marks[place] == 0 {
        set(record, held, place, marks);
      }
    };
  }),
  ("marks of refused calls are not written", |rules| {
    rules.set = |record, held, place, marks| {
      if held.answers[place] == 0 {
        set(record, held, place, marks);
      }
    };
  }),
  ("the marks are reported", |rules| rules.set_value = |_, marks| marks),
  ("the old marks are reported", |rules| rules.set_value = |old, _| old.into()),
  ("1 is reported", |rules| rules.set_value = |_, _| 1),
];
