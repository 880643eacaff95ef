//! A second reading of records of filed calls, each field at its place, by rules that can
//! be changed one by one: what a core answers that files and withdraws by it.

// Each test uses a part of it.
#![allow(dead_code)]

use differential::{Answer, Lent, LentRecord, image, keeps, layout::*, well_formed};
use oracle::{Answer as Given, Call, Desk, Limits, apply, random::Random};

use crate::sheet_rules::{self, Reading, desk, put};

/// What a filing or a withdrawal is refused for. `Call` is what the call itself is refused
/// for, where there is no room for it.
#[derive(Debug, Clone, Copy, PartialEq, Eq)]
pub enum Ground {
  NoDesk,
  NoRecord,
  BadCall,
  NoRoom,
  Call,
  NoSuchCall,
}

/// How many calls and how many bytes of text there are at most.
#[derive(Debug, Clone, Copy)]
pub struct Bounds {
  pub calls: usize,
  pub text: usize,
}

/// A call as its bytes and as it reads.
pub type Filed = (Vec<u8>, Call);

/// A record: its calls, the answers, the marks, and the kept desk, where it is looked at.
#[derive(Debug, Clone)]
pub struct Held {
  pub calls: Vec<Filed>,
  pub answers: Vec<u8>,
  pub marks: Vec<u8>,
  pub kept: Option<Desk>,
}

#[derive(Clone)]
pub struct Rules {
  /// The form of filed calls, and of one that is to be filed.
  pub filed: sheet_rules::Rules,
  pub call: sheet_rules::Rules,
  /// The lengths of words and bytes.
  pub lengths: fn(usize, usize) -> bool,
  /// How many bytes a word says are used.
  pub used: fn(u32) -> usize,
  /// Of a record that is lent, and of one in which a call is filed.
  pub held: Bounds,
  pub room: Bounds,
  /// How many bytes of a call are counted as text.
  pub text: fn(&Filed) -> usize,
  /// Whether a record may have marks as these.
  pub fits: fn(&LentRecord, &Held) -> bool,
  /// What else is asked of the memory of a record.
  pub also: fn(&LentRecord, &Held) -> bool,
  /// Whether a record of so many calls must keep a desk.
  pub must_keep: fn(usize) -> bool,
  /// The kept desk, over this source; none where it is not well formed.
  pub kept: fn(&[u8], &LentRecord) -> Option<Desk>,
  /// The call that is to be filed, out of those that were handed in.
  pub one: fn(Vec<Filed>) -> Option<Filed>,
  /// In the order in which it is tested.
  pub file_order: [Ground; 5],
  /// Whether a call with this answer is filed, and with what answer.
  pub files: fn(u32) -> Option<u32>,
  /// Whether one that has no room is filed all the same.
  pub files_without_room: bool,
  /// The desk that a filing keeps, by the one before the call and the one behind it.
  pub keep: fn(&Held, &Desk, &Desk) -> Option<Desk>,
  pub make: fn(&mut Desk, &Call) -> Given,
  /// Whether the desk is laid out anew, by whether each byte must stay.
  pub lays_out: fn(bool) -> bool,
  pub value: fn(&Given, &Held) -> u32,
  pub withdraw_order: [Ground; 3],
  /// The place of the k-th of so many calls.
  pub place: fn(u32, usize) -> Option<usize>,
  /// The desk on which a withdrawal makes the calls, by the lent one and the kept one.
  pub start: fn(&Desk, &Desk) -> Desk,
  /// Makes the calls that are left, of which the first so many stood before the one that
  /// was taken out, with the answers that they had.
  pub again: fn(&mut Desk, &[Call], &[u8], usize) -> Vec<u8>,
  /// The value of a withdrawal, by the desk before and behind it.
  pub withdrawn: fn(&Desk, &Desk) -> u32,
  /// Writes the record that is left, in the place of the one that was there.
  pub put_filed: fn(&mut LentRecord, &Held, &Held),
  pub put_withdrawn: fn(&mut LentRecord, &Held, &Held),
  pub put_kept: fn(&mut LentRecord, &Desk),
}

pub fn again(desk: &mut Desk, calls: &[Call]) -> Vec<u8> {
  calls.iter().map(|call| apply(desk, call).number as u8).collect()
}

pub fn fresh(desk: &Desk) -> Desk {
  Desk::open(Limits::FULL, desk.magic_string().source().as_bytes()).expect("the source of a desk")
}

pub fn put_word(record: &mut LentRecord, held: &Held) {
  record.words[RECORD_USED] = held.calls.iter().map(|(bytes, _)| bytes.len() as u32).sum();
}

/// From the byte at this place on, as far as there is room.
pub fn put_bytes(record: &mut LentRecord, at: usize, bytes: &[u8]) {
  record.bytes.iter_mut().skip(at).zip(bytes).for_each(|(place, byte)| *place = *byte);
}

pub fn put_calls(record: &mut LentRecord, held: &Held) {
  let bytes: Vec<u8> = held.calls.iter().flat_map(|(bytes, _)| bytes).copied().collect();
  put_bytes(record, 0, &bytes);
}

pub fn put_answers(record: &mut LentRecord, held: &Held) {
  put_bytes(record, RECORD_ANSWERS, &held.answers);
}

pub fn put_marks(record: &mut LentRecord, held: &Held) {
  put_bytes(record, RECORD_MARKS, &held.marks);
}

pub fn put_all(record: &mut LentRecord, _: &Held, held: &Held) {
  put_word(record, held);
  put_calls(record, held);
  put_answers(record, held);
  put_marks(record, held);
}

pub fn put_kept(record: &mut LentRecord, desk: &Desk) {
  record.keep(&image::encode(&desk.data(), &mut Random::new(1)));
}

/// The kept desk, each table at its place.
pub fn kept(source: &[u8], record: &LentRecord) -> Option<Desk> {
  let (chunks, pieces) = record.words[1..].split_at(6_156);
  let store = &record.bytes[36_168..];
  let holds = well_formed(source, chunks, pieces, store);
  holds.then(|| Desk::build(Limits::FULL, &image::decode(source, chunks, pieces, store)))
}

impl Rules {
  pub fn right() -> Self {
    let bounds = Bounds { calls: 200, text: 32_768 };
    Self {
      filed: sheet_rules::Rules::right(),
      call: sheet_rules::Rules::right(),
      lengths: |words, bytes| words == 10_253 && bytes == 68_936,
      used: |word| word as usize,
      held: bounds,
      room: bounds,
      text: |(_, call)| call.text().map_or(0, <[u8]>::len),
      fits: |_, held| held.marks.iter().all(|&marks| marks <= 100),
      also: |_, _| true,
      must_keep: |count| count > 0,
      kept,
      one: |calls| calls.try_into().ok().map(|[call]: [_; 1]| call),
      file_order: [Ground::NoDesk, Ground::NoRecord, Ground::BadCall, Ground::NoRoom, Ground::Call],
      files: Some,
      files_without_room: false,
      keep: |held, before, _| held.calls.is_empty().then(|| before.clone()),
      make: apply,
      lays_out: |kept| !kept,
      value: |given, _| given.value,
      withdraw_order: [Ground::NoDesk, Ground::NoRecord, Ground::NoSuchCall],
      place: |k, count| (k as usize).checked_sub(1).filter(|&place| place < count),
      start: |_, kept| kept.clone(),
      again: |desk, calls, _, _| again(desk, calls),
      withdrawn: |_, _| 0,
      put_filed: put_all,
      put_withdrawn: put_all,
      put_kept,
    }
  }

  /// Whether the record keeps the bounds.
  fn keeps(&self, bounds: Bounds, calls: &[Filed]) -> bool {
    calls.len() <= bounds.calls && calls.iter().map(self.text).sum::<usize>() <= bounds.text
  }

  /// The record; none where it is not well formed beside a desk over this source.
  pub fn held(&self, source: &[u8], record: &LentRecord) -> Option<Held> {
    if !(self.lengths)(record.words.len(), record.bytes.len()) {
      return None;
    }
    let used = (self.used)(record.words[RECORD_USED]);
    let calls = self.filed.list(record.bytes.get(..used)?)?;
    let [answers, marks] = [RECORD_ANSWERS, RECORD_MARKS]
      .map(|at| record.bytes.iter().skip(at).take(calls.len()).copied().collect());
    let kept = match (self.must_keep)(calls.len()) {
      true => Some((self.kept)(source, record)?),
      false => None,
    };
    let held = Held { calls, answers, marks, kept };
    let fits = self.keeps(self.held, &held.calls) && (self.fits)(record, &held);
    (fits && (self.also)(record, &held)).then_some(held)
  }

  fn file(&self, lent: &mut Lent, record: &mut LentRecord, call: &[u8]) -> Answer {
    let (desk, held) = (desk(lent), self.held(lent.source, record));
    let call = self.call.list(call).and_then(self.one);
    let own = |(desk, call): (&Desk, &Filed)| {
      let number = (self.make)(&mut desk.clone(), &call.1).number;
      (number != 0).then_some(number)
    };
    let no_room = held.as_ref().is_some_and(|held| {
      let calls: Vec<_> = held.calls.iter().chain(&call).cloned().collect();
      held.calls.len() >= self.room.calls || !self.keeps(self.room, &calls)
    });
    let number = |ground: &Ground| match ground {
      Ground::NoDesk => desk.is_none().then_some(2),
      Ground::NoRecord => held.is_none().then_some(2),
      Ground::BadCall => call.is_none().then_some(16),
      Ground::NoRoom => no_room.then_some(13),
      _ => desk.as_ref().zip(call.as_ref()).filter(|_| no_room).and_then(own),
    };
    let refused = self.file_order.iter().find_map(number);
    if let (Some(number), false) = (refused, self.files_without_room && refused == Some(13)) {
      return Answer { number, value: 0 };
    }
    let (Some(mut desk), Some(held), Some(call)) = (desk, held, call) else {
      return Answer::NO_DESK;
    };
    let before = desk.clone();
    let given = (self.make)(&mut desk, &call.1);
    if let Some(answer) = (self.files)(given.number) {
      let mut filed = held.clone();
      filed.calls.push(call.clone());
      filed.answers.push(answer as u8);
      filed.marks.push(0);
      (self.put_filed)(record, &held, &filed);
      if let Some(kept) = (self.keep)(&held, &before, &desk) {
        (self.put_kept)(record, &kept);
      }
    }
    if (self.lays_out)(keeps::every_byte(&call.1, given.number)) {
      put(&desk, lent);
    }
    Answer { number: refused.unwrap_or(given.number), value: (self.value)(&given, &held) }
  }

  fn withdraw(&self, lent: &mut Lent, record: &mut LentRecord, k: u32) -> Answer {
    let (desk, held) = (desk(lent), self.held(lent.source, record));
    let count = held.as_ref().map_or(usize::MAX, |held| held.calls.len());
    let place = (self.place)(k, count);
    let number = |ground: &Ground| match ground {
      Ground::NoDesk => desk.is_none().then_some(2),
      Ground::NoRecord => held.is_none().then_some(2),
      _ => place.is_none().then_some(17),
    };
    if let Some(number) = self.withdraw_order.iter().find_map(number) {
      return Answer { number, value: 0 };
    }
    let (Some(desk), Some(held), Some(place)) = (desk, held, place) else {
      return Answer::NO_DESK;
    };
    let mut left = held.clone();
    left.calls.remove(place);
    left.answers.remove(place);
    left.marks.remove(place);
    let calls: Vec<Call> = left.calls.iter().map(|(_, call)| call.clone()).collect();
    let kept = held.kept.as_ref().unwrap_or(&desk);
    let mut made = (self.start)(&desk, kept);
    left.answers = (self.again)(&mut made, &calls, &left.answers, place);
    (self.put_withdrawn)(record, &held, &left);
    put(&made, lent);
    Answer { number: 0, value: (self.withdrawn)(&desk, &made) }
  }
}

impl Reading for Rules {
  fn file(&mut self, lent: &mut Lent, record: &mut LentRecord, call: &[u8]) -> Option<Answer> {
    Some(Rules::file(self, lent, record, call))
  }

  fn withdraw(&mut self, lent: &mut Lent, record: &mut LentRecord, k: u32) -> Option<Answer> {
    Some(Rules::withdraw(self, lent, record, k))
  }
}
