//! What memory is taken for a record.

use differential::layout::*;

use super::Fault;
use crate::{
  sheet_rules,
  sitting_rules::{kept, put_kept},
};

pub const FAULTS: &[Fault] = &[
  ("199 filed calls at most", |rules| rules.held.calls -= 1),
  ("201 filed calls at most", |rules| rules.held.calls += 1),
  ("32,767 bytes of text at most", |rules| rules.held.text -= 1),
  ("32,769 bytes of text at most", |rules| rules.held.text += 1),
  ("texts are counted with what stands before them", |rules| {
    rules.text = |(bytes, _)| bytes.len();
  }),
  ("more words are taken", |rules| {
    rules.lengths = |words, bytes| words >= RECORD_WORDS_LEN && bytes == RECORD_BYTES_LEN;
  }),
  ("more bytes are taken", |rules| {
    rules.lengths = |words, bytes| words == RECORD_WORDS_LEN && bytes >= RECORD_BYTES_LEN;
  }),
  ("without calls, room for calls and answers is enough", |rules| {
    rules.lengths = |words, bytes| words >= WITHOUT_KEPT[0] && bytes >= WITHOUT_KEPT[1];
    rules.kept = |source, record| {
      let is_whole =
        record.words.len() == RECORD_WORDS_LEN && record.bytes.len() == RECORD_BYTES_LEN;
      is_whole.then(|| kept(source, record)).flatten()
    };
    rules.put_kept = |record, desk| {
      if record.words.len() >= RECORD_WORDS_LEN && record.bytes.len() >= RECORD_BYTES_LEN {
        put_kept(record, desk);
      }
    };
  }),
  ("a kept desk without calls", |rules| rules.must_keep = |_| true),
  ("a kept desk is not looked at", |rules| {
    rules.kept = |source, record| kept(source, record).or_else(|| sheet_rules::fresh(source));
  }),
  ("a kept desk with one call alone", |rules| {
    rules.must_keep = |count| count == 1;
  }),
  ("16 bits of the used bytes", |rules| rules.used = |word| usize::from(word as u16)),
  ("a filed text that is not UTF-8", |rules| {
    rules.filed.text = |text| str::from_utf8(text).is_ok();
  }),
  ("kind 9 in a record", |rules| rules.filed.kinds[9] = 1),
  ("a text behind a filed move", |rules| {
    rules.filed.fits = |kind, len| sheet_rules::fits(kind, len) || kind == 8 && len > 13;
  }),
  ("no empty text in a record", |rules| {
    rules.filed.fits = |kind, len| sheet_rules::fits(kind, len) && (kind < 4 || len != 5);
  }),
  ("answers that are numbers", |rules| {
    rules.also = |_, held| held.answers.iter().all(|&answer| answer <= 17);
  }),
  ("accepted calls alone", |rules| {
    rules.also = |_, held| held.answers.iter().all(|&answer| answer == 0);
  }),
  ("zeros behind the calls", |rules| {
    rules.also = |record, _| {
      let used = record.words[RECORD_USED] as usize;
      record.bytes[used..RECORD_ANSWERS].iter().all(|&byte| byte == 0)
    };
  }),
  ("a used byte behind the last call", |rules| rules.filed.passed_over = 1),
];
