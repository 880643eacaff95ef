//! What a withdrawal does.

use differential::layout::*;
use oracle::{Call, apply};

use super::Fault;
use crate::sitting_rules::{
  Rules, again, fresh, put_all, put_answers, put_bytes, put_calls, put_kept, put_marks, put_word,
};

pub const FAULTS: &[Fault] = &[
  ("calls are counted from 0", |rules| {
    rules.place = |k, count| Some(k as usize).filter(|&place| place < count);
  }),
  ("0 is the first", |rules| {
    rules.place = |k, count| Some((k as usize).saturating_sub(1)).filter(|&place| place < count);
  }),
  ("a number above the count is the last", |rules| {
    rules.place = |k, count| (k as usize).min(count).checked_sub(1);
  }),
  ("8 bits of the number", |rules| {
    rules.place = |k, count| (Rules::right().place)(k & 0xff, count);
  }),
  ("16 bits of the number", |rules| {
    rules.place = |k, count| (Rules::right().place)(k & 0xffff, count);
  }),
  ("calls are counted from the last", |rules| {
    rules.place = |k, count| (Rules::right().place)(k, count).map(|place| count - 1 - place);
  }),
  ("the first is taken out", |rules| {
    rules.place = |k, count| (Rules::right().place)(k, count).map(|_| 0);
  }),
  ("the last is never taken out", |rules| {
    rules.place = |k, count| (Rules::right().place)(k, count).filter(|&place| place + 1 < count);
  }),
  ("answers are left as they were", |rules| {
    rules.again = |desk, calls, answers, _| {
      again(desk, calls);
      answers.to_vec()
    };
  }),
  ("the calls are made on the desk as it is", |rules| rules.start = |desk, _| desk.clone()),
  ("the calls are made on a fresh desk", |rules| rules.start = |desk, _| fresh(desk)),
  ("the desk stays as kept", |rules| {
    rules.again = |desk, calls, _, _| again(&mut desk.clone(), calls);
  }),
  ("calls that were refused are not made", |rules| {
    rules.again = |desk, calls, answers, _| {
      let make = |(call, &answer): (&Call, &u8)| match answer {
        0 => apply(desk, call).number as u8,
        _ => answer,
      };
      calls.iter().zip(answers).map(make).collect()
    };
  }),
  ("behind a refusal nothing is made", |rules| {
    rules.again = |desk, calls, _, _| {
      let mut refused = 0;
      let mut make = |call| {
        refused = if refused == 0 { apply(desk, call).number as u8 } else { refused };
        refused
      };
      calls.iter().map(&mut make).collect()
    };
  }),
  ("only calls behind the one taken out are made", |rules| {
    rules.again = |desk, calls, answers, place| {
      let behind = again(desk, &calls[place..]);
      [&answers[..place], &behind].concat()
    };
  }),
  ("the last call is made first", |rules| {
    rules.again = |desk, calls, _, _| {
      let backward: Vec<Call> = calls.iter().rev().cloned().collect();
      again(desk, &backward).into_iter().rev().collect()
    };
  }),
  ("a call has the text of the first", |rules| {
    rules.again = |desk, calls, _, _| {
      let mut calls = calls.to_vec();
      let first = calls.iter().find_map(|call| call.text().map(<[u8]>::to_vec));
      for (text, first) in calls.iter_mut().filter_map(Call::text_mut).zip(first.iter().cycle()) {
        text.clone_from(first);
      }
      again(desk, &calls)
    };
  }),
  ("a call behind has the text of the one before it", |rules| {
    rules.again = |desk, calls, _, place| {
      let mut calls = calls.to_vec();
      let texts: Vec<_> = calls.iter().map(|call| call.text().map(<[u8]>::to_vec)).collect();
      for (index, call) in calls.iter_mut().enumerate().skip(place.max(1)) {
        if let (Some(text), Some(other)) = (call.text_mut(), &texts[index - 1]) {
          text.clone_from(other);
        }
      }
      again(desk, &calls)
    };
  }),
  ("a text that is not UTF-8 is cut off", |rules| {
    rules.again = |desk, calls, _, _| {
      let mut calls = calls.to_vec();
      for text in calls.iter_mut().filter_map(Call::text_mut) {
        let valid = str::from_utf8(text).map_or_else(|error| error.valid_up_to(), str::len);
        text.truncate(valid);
      }
      again(desk, &calls)
    };
  }),
  ("updates are made without overwrite", |rules| {
    rules.again = |desk, calls, _, _| {
      let mut calls = calls.to_vec();
      for call in &mut calls {
        if let Call::UpdateWith { overwrite, .. } = call {
          *overwrite = 0;
        }
      }
      again(desk, &calls)
    };
  }),
  ("cuts are reported", |rules| {
    rules.withdrawn = |_, desk| desk.counts().chunks as u32 - 1;
  }),
  ("the growth in chunks is reported", |rules| {
    rules.withdrawn =
      |before, desk| desk.counts().chunks.wrapping_sub(before.counts().chunks) as u32;
  }),
  ("pieces are reported", |rules| rules.withdrawn = |_, desk| desk.counts().pieces as u32),
  ("the used bytes stay", |rules| {
    rules.put_withdrawn = |record, _, held| {
      put_calls(record, held);
      put_answers(record, held);
      put_marks(record, held);
    };
  }),
  ("the gap is not closed", |rules| {
    rules.put_withdrawn = |record, _, held| {
      put_word(record, held);
      put_answers(record, held);
      put_marks(record, held);
    };
  }),
  ("answers stay where they were", |rules| {
    rules.put_withdrawn = |record, _, held| {
      put_word(record, held);
      put_calls(record, held);
      put_marks(record, held);
    };
  }),
  ("answers stand one further", |rules| {
    rules.put_withdrawn = |record, before, held| {
      put_all(record, before, held);
      put_bytes(record, RECORD_ANSWERS + 1, &held.answers);
    };
  }),
  ("all answers behind become 0", |rules| {
    rules.put_withdrawn = |record, before, held| {
      put_all(record, before, held);
      let behind = RECORD_ANSWERS + held.answers.len();
      record.bytes[behind..RECORD_MARKS].fill(0);
    };
  }),
  ("all bytes behind the calls become 0", |rules| {
    rules.put_withdrawn = |record, before, held| {
      put_all(record, before, held);
      let used = record.words[RECORD_USED] as usize;
      record.bytes[used..RECORD_ANSWERS].fill(0);
    };
  }),
  ("a byte behind the old calls is written", |rules| {
    rules.put_withdrawn = |record, before, held| {
      put_all(record, before, held);
      let used: usize = before.calls.iter().map(|(bytes, _)| bytes.len()).sum();
      record.bytes[used] ^= 1;
    };
  }),
  ("the kept desk is laid out anew", |rules| {
    rules.put_withdrawn = |record, before, held| {
      put_all(record, before, held);
      before.kept.iter().for_each(|kept| put_kept(record, kept));
    };
  }),
  ("the kept store becomes 0 with the last call", |rules| {
    rules.put_withdrawn = |record, before, held| {
      put_all(record, before, held);
      if held.calls.is_empty() {
        record.bytes[KEPT_STORE..].fill(0);
      }
    };
  }),
  ("the record is emptied", |rules| {
    rules.put_withdrawn = |record, _, _| record.words[RECORD_USED] = 0;
  }),
];
