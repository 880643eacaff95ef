//! A second reading of marks, by rules that can be changed one by one: what a core answers that
//! marks, shows entries and adds up by it, and files, withdraws and freezes beside marks.

use differential::{
  Answer, Lent, LentRecord, image, keeps, layout::RECORD_MARKS, sittings::reading::Reader,
};
use oracle::{Call, apply, number::*, random::Random};

use crate::{
  sheet_rules::{Reading, desk, put},
  sitting_rules::{self, Held},
};

/// What a call of the column is refused for.
#[derive(Debug, Clone, Copy, PartialEq, Eq)]
pub enum Ground {
  NoRecord,
  NoSuchEntry,
  TooHigh,
  NoRoom,
}

#[derive(Clone)]
pub struct Rules {
  /// Filing and withdrawing, and the records that a freezing and the column's calls look at.
  pub record: sitting_rules::Rules,
  pub beside_freezing: sitting_rules::Rules,
  pub beside: sitting_rules::Rules,
  /// What a withdrawal reports, by the record before it and the place of the call; and what
  /// chooses the memory of the desk that it leaves.
  pub withdrawn: fn(&Held, usize) -> u32,
  pub laid_out: fn(&Held) -> Option<u64>,
  /// The place of the k-th of so many entries.
  pub place: fn(u32, usize) -> Option<usize>,
  /// In the order in which it is tested.
  pub set_order: [Ground; 3],
  pub too_high: fn(u32) -> bool,
  /// Writes the marks of the entry at this place.
  pub set: fn(&mut LentRecord, &Held, usize, u32),
  /// What marks do that are too high.
  pub refused: fn(&mut LentRecord, &Held),
  /// What marking reports, by the marks before and the new ones.
  pub set_value: fn(u8, u32) -> u32,
  pub show_order: [Ground; 3],
  /// What the member sees of the entry at this place, and what the examiner does.
  pub member: fn(&LentRecord, &Held, usize) -> Vec<u8>,
  pub examiner: fn(&LentRecord, &Held, usize) -> Vec<u8>,
  /// Whether so many bytes of room are too few for so many.
  pub no_room: fn(usize, usize) -> bool,
  /// What is written to a buffer that is too short, and behind so many bytes to another.
  pub short: fn(&mut [u8], &[u8]),
  pub behind: fn(&mut [u8], usize),
  /// What a reading reports, by the bytes that it has and the room.
  pub show_value: fn(usize, usize) -> u32,
  pub total: fn(&LentRecord, &Held) -> u32,
}

/// The call as it was filed, and its answer.
pub fn member(_: &LentRecord, held: &Held, place: usize) -> Vec<u8> {
  [&held.calls[place].0[..], &[held.answers[place]]].concat()
}

/// The same, and the marks.
pub fn examiner(record: &LentRecord, held: &Held, place: usize) -> Vec<u8> {
  [member(record, held, place), vec![held.marks[place]]].concat()
}

pub fn set(record: &mut LentRecord, _: &Held, place: usize, marks: u32) {
  record.bytes[RECORD_MARKS + place] = marks as u8;
}

pub fn total(held: &Held) -> u32 {
  held.marks.iter().map(|&marks| u32::from(marks)).sum()
}

impl Rules {
  pub fn right() -> Self {
    use Ground::*;
    let record = sitting_rules::Rules::right();
    Self {
      record: record.clone(),
      beside_freezing: record.clone(),
      beside: record.clone(),
      withdrawn: |_, _| 0,
      laid_out: |_| None,
      place: record.place,
      set_order: [NoRecord, NoSuchEntry, TooHigh],
      too_high: |marks| marks > 100,
      set,
      refused: |_, _| (),
      set_value: |_, _| 0,
      show_order: [NoRecord, NoSuchEntry, NoRoom],
      member,
      examiner,
      no_room: |room, needed| room < needed,
      short: |_, _| (),
      behind: |_, _| (),
      show_value: |needed, _| needed as u32,
      total: |_, held| total(held),
    }
  }

  /// The place of the k-th entry; of a record that is none any number may have one.
  fn place_in(&self, held: Option<&Held>, k: u32) -> Option<usize> {
    (self.place)(k, held.map_or(200, |held| held.calls.len()))
  }
}

/// The first number that is due, in this order.
fn first_due(order: [Ground; 3], due: impl Fn(Ground) -> bool) -> Option<Answer> {
  let number = |ground| match ground {
    Ground::NoRecord => NOT_WELL_FORMED,
    Ground::NoSuchEntry => NO_SUCH_CALL,
    Ground::TooHigh => MARKS_TOO_HIGH,
    Ground::NoRoom => SHORT_BUFFER,
  };
  let ground = order.into_iter().find(|&ground| due(ground))?;
  Some(Answer { number: number(ground), value: 0 })
}

impl Reading for Rules {
  fn file(&mut self, lent: &mut Lent, record: &mut LentRecord, call: &[u8]) -> Option<Answer> {
    Reading::file(&mut self.record, lent, record, call)
  }

  fn withdraw(&mut self, lent: &mut Lent, record: &mut LentRecord, k: u32) -> Option<Answer> {
    let held = self.record.held(lent.source, record);
    let answer = Reading::withdraw(&mut self.record, lent, record, k);
    let Some(held) = held.filter(|_| answer == Some(Answer::ACCEPTED)) else { return answer };
    if let (Some(seed), Some(desk)) = ((self.laid_out)(&held), desk(lent)) {
      let image = image::encode(&desk.data(), &mut Random::new(seed));
      lent.chunks.copy_from_slice(&image.chunks);
      lent.pieces.copy_from_slice(&image.pieces);
      lent.store.copy_from_slice(&image.store);
    }
    Some(Answer { number: ACCEPTED, value: (self.withdrawn)(&held, k as usize - 1) })
  }

  fn freeze(
    &mut self,
    lent: &mut Lent,
    record: &LentRecord,
    [start, end]: [u32; 2],
  ) -> Option<Answer> {
    let held = self.beside_freezing.held(lent.source, record);
    let (Some(mut desk), Some(held)) = (desk(lent), held) else { return Some(Answer::NO_DESK) };
    if !held.calls.is_empty() {
      return Some(Answer { number: FROZEN, value: 0 });
    }
    let call = Call::Freeze { start, end };
    let given = apply(&mut desk, &call);
    if !keeps::every_byte(&call, given.number) {
      put(&desk, lent);
    }
    Some(Answer { number: given.number, value: given.value })
  }

  fn set_marks(
    &mut self,
    source: &[u8],
    record: &mut LentRecord,
    k: u32,
    marks: u32,
  ) -> Option<Answer> {
    let held = self.beside.held(source, record);
    let place = self.place_in(held.as_ref(), k);
    let refused = first_due(self.set_order, |ground| match ground {
      Ground::NoRecord => held.is_none(),
      Ground::NoSuchEntry => place.is_none(),
      _ => (self.too_high)(marks),
    });
    let Some(held) = held else { return refused };
    if let Some(refused) = refused {
      (self.refused)(record, &held);
      return Some(refused);
    }
    let place = place?;
    (self.set)(record, &held, place, marks);
    let value = (self.set_value)(held.marks.get(place).copied().unwrap_or(0), marks);
    Some(Answer { number: ACCEPTED, value })
  }

  fn show_entry(
    &mut self,
    source: &[u8],
    record: &LentRecord,
    reader: Reader,
    k: u32,
    out: &mut [u8],
  ) -> Option<Answer> {
    let held = self.beside.held(source, record);
    let place = self.place_in(held.as_ref(), k);
    let shown = match reader {
      Reader::Member => self.member,
      Reader::Examiner => self.examiner,
    };
    let bytes = held.as_ref().zip(place).map_or(vec![0; 10], |(held, at)| shown(record, held, at));
    let refused = first_due(self.show_order, |ground| match ground {
      Ground::NoRecord => held.is_none(),
      Ground::NoSuchEntry => place.is_none(),
      _ => (self.no_room)(out.len(), bytes.len()),
    });
    if let Some(refused) = refused {
      if refused.number == SHORT_BUFFER && held.is_some() && place.is_some() {
        (self.short)(out, &bytes);
      }
      return Some(refused);
    }
    let len = out.len().min(bytes.len());
    out[..len].copy_from_slice(&bytes[..len]);
    (self.behind)(out, len);
    Some(Answer { number: ACCEPTED, value: (self.show_value)(bytes.len(), out.len()) })
  }

  fn total(&mut self, source: &[u8], record: &LentRecord) -> Option<Answer> {
    let Some(held) = self.beside.held(source, record) else { return Some(Answer::NO_DESK) };
    Some(Answer { number: ACCEPTED, value: (self.total)(record, &held) })
  }
}
