//! Calls that break a rule of their form, and records whose memory is damaged.

use std::slice;

use oracle::{
  APPEND_RIGHT,
  Call::{self, *},
};

use super::{
  Action, HARMS, KEPT_HARMS, Kept, Sitting, Written,
  memory::call_bytes,
  reading::{MOST_CALLS, MOST_TEXT},
};
use crate::{
  layout::*,
  sheets::broken::{every_kind, kinds_and_lengths, lists},
};

pub fn all() -> Vec<Sitting> {
  [calls(), fields(), used(), past_bounds(), lengths(), kept_desks(), desks()].concat()
}

const SOURCE: &str = "aé€😀b";

/// A call that is in order is filed, and calls are withdrawn, some of which are not there.
fn record(tries: &'static str, record: Written) -> Sitting {
  let insertion = Insert { at: 1, text: b"x".to_vec(), setting: APPEND_RIGHT };
  let withdrawals = [0, 1, 2, 300].map(Action::Withdraw);
  let actions = [Action::file(&insertion)].into_iter().chain(withdrawals).collect();
  Sitting::fresh(tries, SOURCE, record, actions)
}

/// Calls with a rule broken in each place, none, and two at once.
fn calls() -> Vec<Sitting> {
  let filed = Written::calls(&every_kind()[..2]);
  let sitting = |calls: Vec<Vec<u8>>| {
    let actions = calls.into_iter().map(Action::File).collect();
    Sitting::fresh("calls that break a rule", SOURCE, filed.clone(), actions)
  };
  let each = |call: &Call| {
    let twice = call_bytes(call).repeat(2);
    let broken = lists(slice::from_ref(call)).into_iter();
    sitting(broken.chain([Vec::new(), twice, call_bytes(call)]).collect())
  };
  let mut all: Vec<Sitting> = every_kind().iter().map(each).collect();
  all.push(sitting(kinds_and_lengths().map(|sheet| sheet.list()).collect()));
  all
}

/// Filed calls with a rule broken in each place.
fn fields() -> Vec<Sitting> {
  let of = |list| record("damaged records, their calls", Written::bytes(list));
  let kinds = kinds_and_lengths().map(|sheet| sheet.list());
  lists(&every_kind()).into_iter().chain(kinds).map(of).collect()
}

/// Other counts of used bytes: each up to some more than there are, and around the ends of
/// the calls' room, of the answers, of the marks and of the kept store.
fn used() -> Vec<Sitting> {
  let right = Written::calls(&every_kind());
  let mut counts: Vec<u32> = (0..right.used + 20).collect();
  for end in [RECORD_ANSWERS, RECORD_MARKS, KEPT_STORE, RECORD_BYTES_LEN] {
    counts.extend((end - 5..=end + 5).map(|count| count as u32));
  }
  counts.extend([0x1_0000, 0x1_0000 + right.used, 0x8000_0000 + right.used, u32::MAX]);
  let of = |used| record("damaged records, the used bytes", Written { used, ..right.clone() });
  counts.into_iter().map(of).collect()
}

/// Records with one call more than there may be, or one byte of text; and some at the
/// bound.
fn past_bounds() -> Vec<Sitting> {
  let mut all = Vec::new();
  for call in every_kind() {
    all.extend([0, 1, 2, 55].map(|more| Written::calls(&vec![call.clone(); MOST_CALLS + more])));
  }
  let text = |len| Insert { at: 1, text: vec![b'x'; len], setting: APPEND_RIGHT };
  let update = |len| UpdateWith { start: 0, end: 1, overwrite: 1, text: vec![b'x'; len] };
  for more in [0, 1, 2, 255] {
    let sum = MOST_TEXT + more;
    let half = sum / 2;
    all.push(Written::calls(&[text(sum)]));
    all.push(Written::calls(&[update(sum)]));
    all.push(Written::calls(&[text(half), Remove { start: 0, end: 1 }, update(sum - half)]));
    // The same as texts of few bytes, beside a long one.
    let short = vec![text(3); MOST_CALLS - 1];
    all.push(Written::calls(&[short, vec![text(sum - 3 * (MOST_CALLS - 1))]].concat()));
  }
  // They end where the answers begin, or the marks, or the kept store, or all bytes end, or one
  // behind.
  let front = call_bytes(&text(0)).len();
  for end in [RECORD_ANSWERS, RECORD_MARKS, KEPT_STORE, RECORD_BYTES_LEN] {
    let of_len = |end| Written::calls(&[text(end / 2 - front), text(end - end / 2 - front)]);
    all.extend([end, end + 1].map(of_len));
  }
  all.into_iter().map(|written| record("damaged records, the bounds", written)).collect()
}

/// Slices of other lengths, each alone and both: those of a record without a kept desk and of
/// one without marks among them.
fn lengths() -> Vec<Sitting> {
  let [words, bytes] = [RECORD_WORDS_LEN, RECORD_BYTES_LEN];
  let [[short_words, short_bytes], [_, unmarked_bytes]] = [WITHOUT_KEPT, WITHOUT_MARKS];
  let words = [0, short_words, KEPT_PIECES, words - 1, words, words + 1, 2 * words];
  let few_bytes = [0, 1, RECORD_ANSWERS - 1, RECORD_ANSWERS, short_bytes, KEPT_STORE];
  let bytes = [&few_bytes[..], &[unmarked_bytes, bytes - 1, bytes, bytes + 1, 2 * bytes]].concat();
  let mut all = Vec::new();
  for words in words {
    for &bytes in &bytes {
      for calls in [&every_kind()[..], &[]] {
        let written = Written { lengths: [words, bytes], ..Written::calls(calls) };
        all.push(record("damaged records, lengths", written));
      }
    }
  }
  all
}

/// Kept desks that are none: beside calls, and without any, where they are not looked at.
fn kept_desks() -> Vec<Sitting> {
  let with = |harm| {
    [&every_kind()[..], &[]].map(|calls| {
      let written = Written { kept: Kept::Fresh, harm: Some(harm), ..Written::calls(calls) };
      record("damaged records, the kept desk", written)
    })
  };
  KEPT_HARMS.into_iter().flat_map(with).collect()
}

/// Memory that is no desk, beside a record that is one and one that is none.
fn desks() -> Vec<Sitting> {
  let filed = Written::calls(&every_kind());
  let none = Written { used: filed.used - 1, ..filed.clone() };
  let with = |harm| {
    let records = [filed.clone(), none.clone(), Written::calls(&[])];
    let of = move |written| Sitting { harm: Some(harm), ..record("damaged desks", written) };
    records.map(of)
  };
  HARMS.into_iter().flat_map(with).collect()
}
