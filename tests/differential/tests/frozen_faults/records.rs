//! Records and what they keep, with marks.

use differential::layout::*;
use oracle::{Desk, Limits};

use super::Fault;
use crate::{
  frozen_rules::bare,
  sheet_rules,
  sitting_rules::{Rules, fresh, kept, put_all, put_kept},
};

pub const FAULTS: &[Fault] = &[
  ("a withdrawal begins with a fresh desk", |rules| {
    rules.record.start = |desk, _| fresh(desk);
  }),
  ("a withdrawal begins with the desk as it is", |rules| {
    rules.record.start = |desk, _| desk.clone();
  }),
  ("a withdrawal clears the marks", |rules| {
    rules.record.start = |_, kept| without_marks(kept);
  }),
  ("a withdrawal has the marks of the desk as it is", |rules| {
    rules.record.start = |desk, kept| {
      let mut data = kept.data();
      for chunk in &mut data.chunks {
        chunk.frozen = desk.marks().at(chunk.start);
      }
      Desk::build(Limits::FULL, &data)
    };
  }),
  ("no marks are kept", |rules| {
    rules.record.keep = |held, before, _| held.calls.is_empty().then(|| without_marks(before));
  }),
  ("the desk behind the first call is kept", |rules| {
    rules.record.keep = |held, _, behind| held.calls.is_empty().then(|| behind.clone());
  }),
  ("the desk is kept again with each call", |rules| {
    rules.record.keep = |_, before, _| Some(before.clone());
  }),
  ("the kept desk is laid out anew with each call", |rules| {
    rules.record.keep = |held, before, _| held.kept.clone().or_else(|| Some(before.clone()));
  }),
  ("the kept desk is laid out anew by a withdrawal", |rules| {
    rules.record.put_withdrawn = |record, before, held| {
      put_all(record, before, held);
      before.kept.iter().for_each(|kept| put_kept(record, kept));
    };
  }),
  ("a kept desk is looked at without calls", |rules| {
    rules.record.must_keep = |_| true;
    rules.beside.must_keep = |_| true;
  }),
  ("a freezing looks at the kept desk without calls", |rules| {
    rules.beside.must_keep = |_| true;
  }),
  ("a freezing does not look at the kept desk", |rules| {
    rules.beside.must_keep = |_| false;
  }),
  ("a filing does not look at the kept desk", |rules| {
    rules.record.kept =
      |source, record| kept(source, record).or_else(|| sheet_rules::fresh(source));
  }),
  ("a freezing takes a record without a kept desk", |rules| {
    rules.beside.lengths = |words, bytes| words >= WITHOUT_KEPT[0] && bytes >= WITHOUT_KEPT[1];
    rules.beside.must_keep = |_| false;
  }),
  ("a freezing takes an empty record without a kept desk", |rules| {
    rules.beside.lengths = |words, bytes| words >= WITHOUT_KEPT[0] && bytes >= WITHOUT_KEPT[1];
    rules.beside.kept = |source, record| {
      let is_whole = (Rules::right().lengths)(record.words.len(), record.bytes.len());
      is_whole.then(|| kept(source, record)).flatten()
    };
  }),
  ("a freezing takes a longer record", |rules| {
    rules.beside.lengths = |words, bytes| words >= RECORD_WORDS_LEN && bytes >= RECORD_BYTES_LEN;
    rules.beside.must_keep = |_| false;
  }),
];

fn without_marks(desk: &Desk) -> Desk {
  Desk::build(Limits::FULL, &bare(&desk.data()))
}
