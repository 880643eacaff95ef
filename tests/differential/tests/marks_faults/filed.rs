//! What filing and withdrawing make of marks.

use differential::{LentRecord, layout::*};

use super::Fault;
use crate::sitting_rules::{Held, put_all, put_answers, put_bytes, put_calls, put_word};

pub const FAULTS: &[Fault] = &[
  ("a filing leaves the marks that stood there", |rules| {
    rules.record.put_filed = |record, _, held| put_with(record, held, &[]);
  }),
  ("a filing clears all marks", |rules| {
    rules.record.put_filed = |record, _, held| put_with(record, held, &vec![0; held.marks.len()]);
  }),
  ("a filing clears the marks of the entry before", |rules| {
    rules.record.put_filed = |record, before, held| {
      put_all(record, before, held);
      put_bytes(record, RECORD_MARKS + before.marks.len().max(1) - 1, &[0]);
    };
  }),
  ("a filing gives the highest marks", |rules| {
    rules.record.put_filed = |record, before, held| {
      put_all(record, before, held);
      put_bytes(record, RECORD_MARKS + before.marks.len(), &[100]);
    };
  }),
  ("a filing takes over the marks of the entry before", |rules| {
    rules.record.put_filed = |record, before, held| {
      put_all(record, before, held);
      let last = before.marks.last().copied().unwrap_or(0);
      put_bytes(record, RECORD_MARKS + before.marks.len(), &[last]);
    };
  }),
  ("the answer of a filed call is its marks", |rules| {
    rules.record.put_filed = |record, before, held| {
      put_all(record, before, held);
      let last = held.answers.last().copied().unwrap_or(0);
      put_bytes(record, RECORD_MARKS + before.marks.len(), &[last]);
    };
  }),
  ("a filing clears marks that are too high alone", |rules| {
    rules.record.put_filed = |record, before, held| {
      let at = RECORD_MARKS + before.marks.len();
      let old = record.bytes[at];
      put_all(record, before, held);
      put_bytes(record, at, &[if old > 100 { 0 } else { old }]);
    };
  }),
  ("a filing clears the byte behind its marks", |rules| {
    rules.record.put_filed = |record, before, held| {
      put_all(record, before, held);
      record.bytes[RECORD_MARKS + held.marks.len()..KEPT_STORE].iter_mut().take(1).for_each(clear);
    };
  }),
  ("the first filing clears the bytes of all marks", |rules| {
    rules.record.put_filed = |record, before, held| {
      put_all(record, before, held);
      if before.marks.is_empty() {
        record.bytes[RECORD_MARKS..KEPT_STORE].iter_mut().for_each(clear);
      }
    };
  }),
  ("the 200th filing writes no marks", |rules| {
    rules.record.put_filed = |record, before, held| match held.marks.len() {
      200 => put_with(record, held, &before.marks),
      _ => put_all(record, before, held),
    };
  }),
  ("a withdrawal leaves marks at their old numbers", |rules| {
    rules.record.put_withdrawn = |record, _, held| put_with(record, held, &[]);
  }),
  ("a withdrawal takes the first marks out", |rules| {
    rules.record.put_withdrawn = |record, before, held| put_with(record, held, &before.marks[1..]);
  }),
  ("a withdrawal takes the marks behind it out", |rules| {
    rules.record.put_withdrawn = |record, before, held| {
      let mut marks = before.marks.clone();
      marks.remove((taken_out(before, held) + 1).min(held.marks.len()));
      put_with(record, held, &marks);
    };
  }),
  ("a withdrawal clears all marks", |rules| {
    rules.record.put_withdrawn =
      |record, _, held| put_with(record, held, &vec![0; held.marks.len()]);
  }),
  ("a withdrawal clears the marks of the calls behind", |rules| {
    rules.record.put_withdrawn = |record, before, held| {
      let mut marks = held.marks.clone();
      marks[taken_out(before, held)..].fill(0);
      put_with(record, held, &marks);
    };
  }),
  ("a withdrawal clears marks of calls that are refused", |rules| {
    rules.record.put_withdrawn = |record, _, held| {
      let each = held.marks.iter().zip(&held.answers);
      let marks: Vec<u8> =
        each.map(|(&marks, &answer)| if answer == 0 { marks } else { 0 }).collect();
      put_with(record, held, &marks);
    };
  }),
  ("a withdrawal clears marks of calls whose answers turn", |rules| {
    rules.record.put_withdrawn = |record, before, held| {
      let mut old = before.answers.clone();
      old.remove(taken_out(before, held));
      let mut marks = held.marks.clone();
      for (place, marks) in marks.iter_mut().enumerate() {
        *marks = if (old[place] == 0) == (held.answers[place] == 0) { *marks } else { 0 };
      }
      put_with(record, held, &marks);
    };
  }),
  ("the marks taken out are added to the first", |rules| {
    rules.record.put_withdrawn = |record, before, held| {
      let mut marks = held.marks.clone();
      let taken = before.marks[taken_out(before, held)];
      marks.iter_mut().take(1).for_each(|marks| *marks = (*marks + taken).min(100));
      put_with(record, held, &marks);
    };
  }),
  ("a withdrawal turns marks round", |rules| {
    rules.record.put_withdrawn = |record, _, held| {
      let marks: Vec<u8> = held.marks.iter().rev().copied().collect();
      put_with(record, held, &marks);
    };
  }),
  ("a withdrawal clears the byte behind the old marks", |rules| {
    rules.record.put_withdrawn = |record, before, held| {
      put_all(record, before, held);
      let behind = RECORD_MARKS + before.marks.len();
      record.bytes[behind..KEPT_STORE].iter_mut().take(1).for_each(clear);
    };
  }),
  ("a withdrawal clears all bytes behind the marks", |rules| {
    rules.record.put_withdrawn = |record, before, held| {
      put_all(record, before, held);
      record.bytes[RECORD_MARKS + held.marks.len()..KEPT_STORE].iter_mut().for_each(clear);
    };
  }),
];

fn clear(byte: &mut u8) {
  *byte = 0;
}

/// All but the marks as it should be, and these marks.
fn put_with(record: &mut LentRecord, held: &Held, marks: &[u8]) {
  put_word(record, held);
  put_calls(record, held);
  put_answers(record, held);
  put_bytes(record, RECORD_MARKS, marks);
}

/// The place of the call that is not left.
fn taken_out(before: &Held, left: &Held) -> usize {
  let mut places = 0..left.calls.len();
  places.find(|&place| before.calls[place] != left.calls[place]).unwrap_or(left.calls.len())
}
