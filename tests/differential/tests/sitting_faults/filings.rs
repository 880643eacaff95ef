//! What a filing does.

use differential::layout::*;
use oracle::apply;

use super::Fault;
use crate::sitting_rules::{
  fresh, put_all, put_answers, put_bytes, put_calls, put_marks, put_word,
};

pub const FAULTS: &[Fault] = &[
  ("a refused call is not filed", |rules| {
    rules.files = |number| (number == 0).then_some(number);
  }),
  ("the desk's 13 is not filed", |rules| {
    rules.files = |number| (number != 13).then_some(number);
  }),
  ("1 is not filed", |rules| rules.files = |number| (number != 1).then_some(number)),
  ("a refused call is filed as accepted", |rules| rules.files = |_| Some(0)),
  ("199 calls are filed", |rules| rules.room.calls -= 1),
  ("201 calls are filed", |rules| rules.room.calls += 1),
  ("32,767 bytes of text are filed", |rules| rules.room.text -= 1),
  ("32,769 bytes of text are filed", |rules| rules.room.text += 1),
  ("a call that has no room is filed", |rules| {
    rules.files_without_room = true;
  }),
  ("a call that has no room is made", |rules| {
    rules.files_without_room = true;
    rules.put_filed = |_, _, _| ();
  }),
  ("a text that is not UTF-8 is 16", |rules| {
    rules.call.text = |text| str::from_utf8(text).is_ok();
  }),
  ("the first of two calls is filed", |rules| {
    rules.one = |calls| calls.into_iter().next();
  }),
  ("the last of two calls is filed", |rules| rules.one = |mut calls| calls.pop()),
  ("a call's length counts itself", |rules| rules.call.counted = 2),
  ("a kind more is filed", |rules| rules.call.kinds[9] = 1),
  ("an update is filed without overwrite", |rules| rules.call.overwrite = 0),
  ("no cuts are reported", |rules| rules.value = |_, _| 0),
  ("no cuts of a refused call are reported", |rules| {
    rules.value = |given, _| if given.number == 0 { given.value } else { 0 };
  }),
  ("the count is reported", |rules| rules.value = |_, held| held.calls.len() as u32 + 1),
  ("what stays of a refused call is undone", |rules| {
    rules.make = |desk, call| {
      let before = desk.clone();
      let given = apply(desk, call);
      if given.number != 0 {
        *desk = before;
      }
      given
    };
  }),
  ("a refused call is laid out anew", |rules| rules.lays_out = |_| true),
  ("the call is not made", |rules| {
    rules.make = |desk, call| apply(&mut desk.clone(), call);
  }),
  ("the call is made twice", |rules| {
    rules.make = |desk, call| {
      let given = apply(desk, call);
      apply(desk, call);
      given
    };
  }),
  ("no desk is kept", |rules| rules.keep = |_, _, _| None),
  ("the desk behind the call is kept", |rules| {
    rules.keep = |held, _, behind| held.calls.is_empty().then(|| behind.clone());
  }),
  ("a fresh desk is kept", |rules| {
    rules.keep = |held, before, _| held.calls.is_empty().then(|| fresh(before));
  }),
  ("each filing keeps the desk", |rules| rules.keep = |_, before, _| Some(before.clone())),
  ("each filing lays the kept desk out anew", |rules| {
    rules.keep = |held, before, _| held.kept.clone().or_else(|| Some(before.clone()));
  }),
  ("a word behind the used bytes is written", |rules| {
    rules.put_filed = |record, before, held| {
      put_all(record, before, held);
      record.words[KEPT_PIECES] ^= before.calls.len() as u32;
    };
  }),
  ("the used bytes stay", |rules| {
    rules.put_filed = |record, _, held| {
      put_calls(record, held);
      put_answers(record, held);
      put_marks(record, held);
    };
  }),
  ("the call is not written", |rules| {
    rules.put_filed = |record, _, held| {
      put_word(record, held);
      put_answers(record, held);
      put_marks(record, held);
    };
  }),
  ("the answer is not written", |rules| {
    rules.put_filed = |record, _, held| {
      put_word(record, held);
      put_calls(record, held);
      put_marks(record, held);
    };
  }),
  ("answers stand one further", |rules| {
    rules.put_filed = |record, _, held| {
      put_word(record, held);
      put_calls(record, held);
      put_bytes(record, RECORD_ANSWERS + 1, &held.answers);
      put_marks(record, held);
    };
  }),
  ("answers before it become 0", |rules| {
    rules.put_filed = |record, before, held| {
      put_all(record, before, held);
      put_bytes(record, RECORD_ANSWERS, &vec![0; before.answers.len()]);
    };
  }),
  ("a byte behind the calls is written", |rules| {
    rules.put_filed = |record, before, held| {
      put_all(record, before, held);
      let used = record.words[RECORD_USED] as usize;
      record.bytes[used..].iter_mut().take(1).for_each(|byte| *byte ^= 1);
    };
  }),
  ("a byte behind the answers is written", |rules| {
    rules.put_filed = |record, before, held| {
      put_all(record, before, held);
      let behind = RECORD_ANSWERS + held.answers.len();
      record.bytes.iter_mut().skip(behind).take(1).for_each(|byte| *byte ^= 1);
    };
  }),
];
