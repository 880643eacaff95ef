//! Entries of every kind, shown to both readers in buffers of every length.

use std::slice;

use oracle::Call;

use crate::{
  sheets::broken::every_kind,
  sittings::{
    Action, Sitting, Written, call_bytes,
    reading::{MOST_TEXT, Reader},
    steps::{insert, update},
  },
};

pub fn all() -> Vec<Sitting> {
  [rooms(), places(), answers()].concat()
}

const SOURCE: &str = "aé€😀b";

/// Both readings in a buffer of each length up to some more than is needed; and in long ones.
fn rooms() -> Vec<Sitting> {
  let long = [update(1, 3, &[b'u'; 300]), insert(0, &[b'x'; MOST_TEXT])];
  let mut all = Vec::new();
  for call in every_kind().iter().chain(&long) {
    let record = Written { marks: vec![63], ..Written::calls(slice::from_ref(call)) };
    let needed = call_bytes(call).len();
    let short = if needed < 100 { 0..needed } else { 0..3 };
    let around = needed - 2..needed + 5;
    let rooms = short.chain(around).chain([needed + 200, 70_000]);
    let show =
      |room| [Reader::Member, Reader::Examiner].map(|reader| Action::Show { reader, k: 1, room });
    let actions = rooms.flat_map(show).collect();
    all.push(Sitting::fresh("room for an entry", SOURCE, record, actions));
  }
  all
}

/// Every entry of a record of all kinds, in the order in which they are filed and backward,
/// each just fitting.
fn places() -> Vec<Sitting> {
  let calls = every_kind();
  let marks: Vec<u8> = (0..calls.len() as u8).map(|place| 100 - 9 * place).collect();
  let show = |(place, call): (usize, &Call)| {
    [(Reader::Member, 1), (Reader::Examiner, 2)].map(|(reader, behind)| {
      let room = call_bytes(call).len() + behind;
      Action::Show { reader, k: place as u32 + 1, room }
    })
  };
  let forward: Vec<Action> = calls.iter().enumerate().flat_map(show).collect();
  let backward = forward.iter().rev().cloned().collect();
  [forward, backward]
    .map(|actions| {
      let record = Written { marks: marks.clone(), ..Written::calls(&calls) };
      Sitting::fresh("every entry", SOURCE, record, actions)
    })
    .to_vec()
}

/// What the calls got, filed one by one; and answers that no call gets.
fn answers() -> Vec<Sitting> {
  let calls = every_kind();
  let show = |k: usize| {
    [Reader::Member, Reader::Examiner].map(|reader| Action::Show { reader, k: k as u32, room: 60 })
  };
  let shown: Vec<Action> = (1..=calls.len()).flat_map(show).collect();
  let filed = calls.iter().map(Action::file).chain(shown.clone()).collect();
  let answers = (0..calls.len() as u8).map(|place| 255 - 17 * place).collect();
  let by_hand = Written { answers, ..Written::calls(&calls) };
  vec![
    Sitting::fresh("answers of entries", SOURCE, Written::calls(&[]), filed),
    Sitting::fresh("answers of entries", SOURCE, by_hand, shown),
  ]
}
