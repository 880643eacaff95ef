//! Freezings beside records: with calls filed and without, kept desks with marks and edits,
//! harmed ones, records without a kept desk, and other sources.

use oracle::{
  Call::{self, *},
  DeskData,
};

use crate::{
  layout::*,
  sittings::{
    Action, HARMS, KEPT_HARMS, Kept, Sitting, Written,
    steps::{action, desk, freeze, insert, relocate, remove, update},
  },
};

pub fn all() -> Vec<Sitting> {
  [with_calls(), none(), lengths(), kept_desks(), sources(), withdrawals(), by_hand()].concat()
}

const SOURCE: &str = "abcdé";

/// With a replacement and a frozen chunk.
fn in_use() -> DeskData {
  desk(SOURCE, &[update(2, 4, b"XY"), insert(0, b"h"), freeze(1, 2)])
}

fn calls() -> [Call; 2] {
  [insert(1, b"i"), remove(0, 2)]
}

/// What a record may be looked at by.
fn every_action() -> [Action; 3] {
  [Action::Freeze { start: 0, end: 1 }, Action::file(&insert(2, b"f")), Action::Withdraw(1)]
}

/// A sitting for each of these actions alone.
fn each(tries: &'static str, desk: &DeskData, record: &Written) -> Vec<Sitting> {
  let of = |action| Sitting::on(tries, desk.clone(), record.clone(), vec![action]);
  every_action().map(of).to_vec()
}

/// With calls filed 20 comes before all but 2: positions of every kind.
fn with_calls() -> Vec<Sitting> {
  let last = SOURCE.len() as u32 + 1;
  let pairs = (0..=last).flat_map(|start| (0..=last).map(move |end| Action::Freeze { start, end }));
  let sitting = |calls: &[Call]| {
    let record = Written::calls(calls);
    Sitting::on("freezings beside calls", in_use(), record, pairs.clone().collect())
  };
  let mut all: Vec<Sitting> =
    [&calls()[..1], &calls(), &vec![remove(0, 0); 200], &[]].map(sitting).to_vec();
  let mut one_by_one = calls().iter().map(Action::file).collect::<Vec<_>>();
  one_by_one.extend(every_action());
  all.push(Sitting::on("freezings beside calls", in_use(), Written::calls(&[]), one_by_one));
  all
}

/// Desks and records that are none, both too: 2 before all.
fn none() -> Vec<Sitting> {
  let filed = Written::calls(&calls());
  let short = Written { used: filed.used - 1, ..filed.clone() };
  let mut all = Vec::new();
  for record in [filed, short, Written::calls(&[])] {
    for harm in HARMS.into_iter().map(Some).chain([None]) {
      let each = each("no desk or no record", &in_use(), &record).into_iter();
      all.extend(each.map(|sitting| Sitting { harm, ..sitting }));
    }
  }
  all
}

/// Memory of a record that keeps no desk, as it was right before: too short now. So is that
/// of a record without marks.
fn lengths() -> Vec<Sitting> {
  let [words, bytes] = [RECORD_WORDS_LEN, RECORD_BYTES_LEN];
  let [[short_words, short_bytes], [_, unmarked_bytes]] = [WITHOUT_KEPT, WITHOUT_MARKS];
  let mut all = Vec::new();
  for words in [short_words, KEPT_PIECES, words - 1, words, words + 1] {
    for bytes in [short_bytes, unmarked_bytes, bytes - 1, bytes, bytes + 1] {
      for calls in [&calls()[..], &[]] {
        let record = Written { lengths: [words, bytes], ..Written::calls(calls) };
        all.extend(each("records of other lengths", &in_use(), &record));
      }
    }
  }
  all
}

/// Each harm of a kept desk, which is one with marks or a fresh one: beside calls, and where
/// it is not looked at.
fn kept_desks() -> Vec<Sitting> {
  let mut all = Vec::new();
  for kept in [Kept::Fresh, Kept::Desk(in_use())] {
    for harm in KEPT_HARMS.into_iter().map(Some).chain([None]) {
      for calls in [&calls()[..], &[]] {
        let record = Written { kept: kept.clone(), harm, ..Written::calls(calls) };
        all.extend(each("harmed kept desks", &in_use(), &record));
      }
    }
  }
  all
}

/// The desk is opened anew with calls filed: over its source, over one with the same places
/// between characters, and over others.
fn sources() -> Vec<Sitting> {
  let mut all = Vec::new();
  for source in [SOURCE, "ABCDÉ", "abcd", "abcdef", "aébcd", "", "abcdefgh"] {
    let open = action(Open { source: source.as_bytes().to_vec() });
    for last in every_action() {
      let mut actions: Vec<Action> = calls().iter().map(Action::file).collect();
      actions.extend([open.clone(), last, action(ToString { room: None })]);
      let record = Written::calls(&[]);
      all.push(Sitting::on("another source with calls filed", in_use(), record, actions));
    }
  }
  all
}

/// Freezings and edits before the first filing, edits between filings, all calls withdrawn in
/// some orders, and a freezing behind the last.
fn withdrawals() -> Vec<Sitting> {
  let reset = Reset { start: 0, end: 2 };
  let filed = [remove(0, 3), relocate(1, 2, 6), reset, update(2, 4, b"U"), insert(2, b"p")];
  let mut all = Vec::new();
  for before in [&[][..], &[freeze(1, 2)], &[update(3, 4, b"XY"), freeze(0, 1), insert(2, b"q")]] {
    for ks in [[5, 4, 3, 2, 1], [1, 1, 1, 1, 1], [2, 3, 1, 2, 1]] {
      let mut actions: Vec<Action> = before.iter().cloned().map(action).collect();
      for (place, call) in filed.iter().enumerate() {
        actions.extend([Action::file(call), action(insert(place as u32, b"lost"))]);
      }
      actions.push(action(freeze(0, 0)));
      actions.extend(ks.map(Action::Withdraw));
      actions.extend([action(freeze(0, 4)), Action::Withdraw(1), action(Trim { pattern: 0 })]);
      actions.push(Action::file(&filed[0]));
      all.push(Sitting::fresh("withdrawals", SOURCE, Written::calls(&[]), actions));
    }
  }
  all
}

/// Marks on the desk alone, on the kept one alone, and on other chunks of both: a call that
/// the one refuses the other does not. The answers at first are none that a call gets.
fn by_hand() -> Vec<Sitting> {
  let at = |ranges: &[Call]| desk(SOURCE, ranges);
  let desks = [at(&[]), at(&[freeze(0, 2)]), at(&[freeze(2, 4), insert(1, b"k")])];
  let filed = [remove(0, 1), remove(2, 3), update(3, 4, b"U")];
  let mut all = Vec::new();
  for lent in &desks {
    for kept in &desks {
      let (kept, answers) = (Kept::Desk(kept.clone()), vec![99; filed.len()]);
      let record = Written { kept, answers, ..Written::calls(&filed) };
      let file = filed.iter().map(Action::file);
      let actions = file.chain([1, 4, 1, 3, 2, 1].map(Action::Withdraw)).collect();
      all.push(Sitting::on("a kept desk of other marks", lent.clone(), record, actions));
    }
  }
  all
}
