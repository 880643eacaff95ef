//! What memory is taken for a record, by its marks and otherwise.

use differential::{LentRecord, layout::*};
use oracle::Desk;

use super::Fault;
use crate::{
  marks_rules::Rules,
  sheet_rules,
  sitting_rules::{self, Held, kept},
};

pub const FAULTS: &[Fault] = &[
  ("marks of 101 are taken", |rules| every(rules, |_, held| all(held, 101))),
  ("marks of 100 are not taken", |rules| every(rules, |_, held| all(held, 99))),
  ("marks are not looked at", |rules| every(rules, |_, _| true)),
  ("filing and withdrawing do not look at marks", |rules| rules.record.fits = |_, _| true),
  ("a freezing does not look at marks", |rules| rules.beside_freezing.fits = |_, _| true),
  ("the column's calls do not look at marks", |rules| rules.beside.fits = |_, _| true),
  ("filing and withdrawing take marks of 101", |rules| {
    rules.record.fits = |_, held| all(held, 101);
  }),
  ("the column's calls take marks of 101", |rules| rules.beside.fits = |_, held| all(held, 101)),
  ("marks are signed", |rules| {
    every(rules, |_, held| held.marks.iter().all(|&marks| marks as i8 <= 100));
  }),
  ("7 bits of marks", |rules| {
    every(rules, |_, held| held.marks.iter().all(|&marks| marks & 0x7f <= 100));
  }),
  ("the first marks are looked at", |rules| {
    every(rules, |_, held| held.marks.first().is_none_or(|&marks| marks <= 100));
  }),
  ("the last marks are looked at", |rules| {
    every(rules, |_, held| held.marks.last().is_none_or(|&marks| marks <= 100));
  }),
  ("the first marks are not looked at", |rules| {
    every(rules, |_, held| held.marks.iter().skip(1).all(|&marks| marks <= 100));
  }),
  ("the last marks are not looked at", |rules| {
    every(rules, |_, held| held.marks.iter().rev().skip(1).all(|&marks| marks <= 100));
  }),
  ("the 200th marks are not looked at", |rules| {
    every(rules, |_, held| held.marks.iter().take(199).all(|&marks| marks <= 100));
  }),
  ("the byte behind the last marks is looked at", |rules| {
    every(rules, |record, held| places(record).take(held.marks.len() + 1).all(|byte| byte <= 100));
  }),
  ("the bytes of all marks are looked at", |rules| {
    every(rules, |record, _| places(record).all(|byte| byte <= 100));
  }),
  ("without calls the bytes of all marks are looked at", |rules| {
    every(rules, |record, held| match held.marks[..] {
      [] => places(record).all(|byte| byte <= 100),
      _ => all(held, 100),
    });
  }),
  ("the sum of marks is bounded", |rules| {
    every(rules, |_, held| {
      all(held, 100) && held.marks.iter().map(|&marks| u32::from(marks)).sum::<u32>() < 20_000
    });
  }),
  ("an empty record without marks is taken", |rules| {
    lengths(rules, |words, bytes| [words, bytes] == WITHOUT_MARKS || is_right(words, bytes));
  }),
  ("an empty record without a kept desk is taken", |rules| {
    lengths(rules, |words, bytes| [words, bytes] == WITHOUT_KEPT || is_right(words, bytes));
  }),
  ("a longer record is taken", |rules| {
    rules.beside.lengths = |words, bytes| words == RECORD_WORDS_LEN && bytes >= RECORD_BYTES_LEN;
  }),
  ("more words are taken", |rules| {
    rules.beside.lengths = |words, bytes| words >= RECORD_WORDS_LEN && bytes == RECORD_BYTES_LEN;
  }),
  ("the kept desk is not looked at", |rules| rules.beside.must_keep = |_| false),
  ("the kept desk is looked at without calls", |rules| rules.beside.must_keep = |_| true),
  ("the source is looked at without calls", |rules| {
    rules.beside.must_keep = |_| true;
    rules.beside.kept = |source, record| match record.words[RECORD_USED] {
      0 => sheet_rules::fresh(source),
      _ => kept(source, record),
    };
  }),
  ("the kept desk is looked at over any source", |rules| {
    rules.beside.kept = |source, record| {
      let len = record.words[KEPT_CHUNKS + ROW + END] as usize;
      kept(source, record).or_else(|| kept(&vec![b'a'; len.min(MOST_SOURCE)], record))
    };
  }),
  ("199 entries at most", |rules| rules.beside.held.calls -= 1),
  ("16 bits of the used bytes", |rules| rules.beside.used = |word| usize::from(word as u16)),
  ("a used byte behind the last call", |rules| rules.beside.filed.passed_over = 1),
];

/// In every call that takes a record.
fn every(rules: &mut Rules, fits: fn(&LentRecord, &Held) -> bool) {
  for record in [&mut rules.record, &mut rules.beside_freezing, &mut rules.beside] {
    record.fits = fits;
  }
}

/// Of the column's calls and a freezing, with calls as it should be.
fn lengths(rules: &mut Rules, lengths: fn(usize, usize) -> bool) {
  for record in [&mut rules.beside_freezing, &mut rules.beside] {
    record.lengths = lengths;
    record.kept = |source, record| -> Option<Desk> {
      let is_right = is_right(record.words.len(), record.bytes.len());
      is_right.then(|| kept(source, record)).flatten()
    };
  }
}

fn is_right(words: usize, bytes: usize) -> bool {
  (sitting_rules::Rules::right().lengths)(words, bytes)
}

fn all(held: &Held, most: u8) -> bool {
  held.marks.iter().all(|&marks| marks <= most)
}

/// The bytes of all marks that there may be.
fn places(record: &LentRecord) -> impl Iterator<Item = u8> {
  record.bytes.iter().skip(RECORD_MARKS).take(RECORD_CALLS).copied()
}
