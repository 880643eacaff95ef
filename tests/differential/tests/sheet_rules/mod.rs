//! A second reading of sheets, each field at its place, by rules that can be changed
//! one by one; and a core that runs sheets by it.

// Each test uses a part of it.
#![allow(dead_code)]

use std::array;

use differential::{
  Answer, Core, Lent, LentRecord, Unseen, cores::StandIn, image, layout::*,
  sittings::reading::Reader, well_formed,
};
use oracle::{Call, Desk, DeskData, Limits, SETTINGS, apply, random::Random};

/// The rules of a sheet and of its run.
#[derive(Clone)]
pub struct Rules {
  pub version: fn(u8) -> bool,
  pub length: fn([u8; 2]) -> u16,
  pub position: fn([u8; 4]) -> u32,
  /// Bytes of the length field that a record's length counts.
  pub counted: usize,
  /// The kind that a kind byte means; 0 is none.
  pub kinds: [usize; 256],
  /// Whether a record of the kind may have so many bytes behind its length.
  pub fits: fn(usize, usize) -> bool,
  pub text: fn(&[u8]) -> bool,
  pub overwrite: u32,
  /// Bytes behind the last record that are passed over.
  pub passed_over: usize,
  pub most_records: usize,
  pub most_sheet: usize,
  pub most_source: usize,
  pub takes: fn(&Lent) -> bool,
  /// What a run is refused for, in the order in which it is tested.
  pub order: [u32; 5],
  /// What a refused run does.
  pub refused: fn(&Said, u32, &mut Lent, &mut [u8]),
  /// Makes the calls, with their answers.
  pub make: fn(&mut Desk, &[Call]) -> Vec<u8>,
  pub value: fn(&[u8]) -> usize,
  /// What is done behind a run.
  pub behind: fn(usize, &mut [u8]),
}

/// What a sheet says, up to where it breaks a rule.
pub struct Said {
  pub source: Vec<u8>,
  pub calls: Vec<Call>,
  pub is_bad: bool,
}

const POSITIONS: [usize; 9] = [0, 2, 2, 2, 1, 1, 1, 1, 3];

pub fn fits(kind: usize, len: usize) -> bool {
  let front = 1 + 4 * POSITIONS[kind];
  match kind {
    0 => false,
    2 | 4..=7 => len >= front,
    _ => len == front,
  }
}

pub fn make(desk: &mut Desk, calls: &[Call]) -> Vec<u8> {
  calls.iter().map(|call| apply(desk, call).number as u8).collect()
}

pub fn fresh(source: &[u8]) -> Option<Desk> {
  Desk::open(Limits { source: usize::MAX, ..Limits::FULL }, source).ok()
}

/// Lays the desk out in the lent tables.
pub fn put(desk: &Desk, lent: &mut Lent) {
  put_data(&desk.data(), lent);
}

pub fn put_data(desk: &DeskData, lent: &mut Lent) {
  let image = image::encode(desk, &mut Random::new(1));
  lent.chunks.copy_from_slice(&image.chunks);
  lent.pieces.copy_from_slice(&image.pieces);
  lent.store.copy_from_slice(&image.store);
}

/// The desk in the lent memory; none where it is not well formed.
pub fn desk(lent: &Lent) -> Option<Desk> {
  let Lent { source, chunks, pieces, store } = lent;
  let holds = well_formed(source, chunks, pieces, store);
  holds.then(|| Desk::build(Limits::FULL, &image::decode(source, chunks, pieces, store)))
}

impl Rules {
  pub fn right() -> Self {
    Self {
      version: |version| version == 1,
      length: u16::from_be_bytes,
      position: u32::from_be_bytes,
      counted: 0,
      kinds: array::from_fn(|byte| if byte < POSITIONS.len() { byte } else { 0 }),
      fits,
      text: |_| true,
      overwrite: 1,
      passed_over: 0,
      most_records: 200,
      most_sheet: 57_344,
      most_source: MOST_SOURCE,
      takes: |lent| {
        let lengths = [lent.chunks.len(), lent.pieces.len(), lent.store.len()];
        lengths == [CHUNK_WORDS, PIECE_WORDS, STORE_BYTES]
      },
      order: [2, 16, 13, 1, 14],
      refused: |_, _, _, _| (),
      make,
      value: <[u8]>::len,
      behind: |_, _| (),
    }
  }

  fn said(&self, sheet: &[u8]) -> Said {
    let source_len = self.length_at(sheet, 1);
    let mut at = 3 + source_len;
    let mut said = Said {
      source: sheet.iter().skip(3).take(source_len).copied().collect(),
      calls: Vec::new(),
      is_bad: at > sheet.len() || !(self.version)(sheet[0]) || sheet.len() > self.most_sheet,
    };
    while !said.is_bad && at + self.passed_over < sheet.len() {
      let len = self.length_at(sheet, at).saturating_sub(self.counted);
      let end = at + 2 + len;
      match self.call(&sheet[at..sheet.len().min(end)], len) {
        Some(call) if end <= sheet.len() && said.calls.len() < self.most_records => {
          said.calls.push(call);
        }
        _ => said.is_bad = true,
      }
      at = end;
    }
    said
  }

  /// The length at this place, 0 where there is none.
  pub fn length_at(&self, sheet: &[u8], at: usize) -> usize {
    let field = sheet.get(at..at + 2).and_then(|field| field.try_into().ok());
    field.map_or(0, self.length).into()
  }

  /// The call of a record with so many bytes behind its length.
  pub fn call(&self, record: &[u8], len: usize) -> Option<Call> {
    let kind = self.kinds[usize::from(*record.get(2)?)];
    if !(self.fits)(kind, len) {
      return None;
    }
    let [a, b, c] = array::from_fn(|place| {
      let field = record.get(3 + 4 * place..7 + 4 * place).and_then(|field| field.try_into().ok());
      field.map_or(0, self.position)
    });
    let text = record.get(3 + 4 * POSITIONS[kind]..).unwrap_or_default().to_vec();
    Some(match kind {
      1 => Call::Remove { start: a, end: b },
      3 => Call::Reset { start: a, end: b },
      8 => Call::Relocate { start: a, end: b, to: c },
      _ if !(self.text)(&text) => return None,
      2 => Call::UpdateWith { start: a, end: b, overwrite: self.overwrite, text },
      _ => Call::Insert { at: a, text, setting: SETTINGS[kind - 4] },
    })
  }

  /// Whole records up to the end, as their bytes and as they read.
  pub fn list(&self, bytes: &[u8]) -> Option<Vec<(Vec<u8>, Call)>> {
    let mut calls = Vec::new();
    let mut at = 0;
    while at + self.passed_over < bytes.len() {
      let len = self.length_at(bytes, at).saturating_sub(self.counted);
      let call = bytes.get(at..at + 2 + len)?;
      calls.push((call.to_vec(), self.call(call, len)?));
      at += call.len();
    }
    Some(calls)
  }

  fn run(&self, lent: &mut Lent, answers: &mut [u8]) -> Answer {
    let said = self.said(lent.source);
    let is_due = |number: &u32| match number {
      2 => !(self.takes)(lent),
      16 => said.is_bad,
      13 => said.source.len() > self.most_source,
      1 => str::from_utf8(&said.source).is_err(),
      _ => said.calls.len() > answers.len(),
    };
    if let Some(number) = self.order.into_iter().find(is_due) {
      (self.refused)(&said, number, lent, answers);
      return Answer { number, value: 0 };
    }
    let mut desk = fresh(&said.source).expect("UTF-8");
    let made = (self.make)(&mut desk, &said.calls);
    answers[..made.len()].copy_from_slice(&made);
    (self.behind)(made.len(), answers);
    if lent.sizes().is_some() {
      put(&desk, lent);
    }
    Answer { number: 0, value: (self.value)(&made) as u32 }
  }
}

/// What rules that can be changed make of calls; of the others nothing.
pub trait Reading {
  fn call(&mut self, _lent: &mut Lent, _call: &Call) -> Option<Answer> {
    None
  }

  fn run_sheet(&mut self, _lent: &mut Lent, _answers: &mut [u8]) -> Option<Answer> {
    None
  }

  fn file(&mut self, _lent: &mut Lent, _record: &mut LentRecord, _call: &[u8]) -> Option<Answer> {
    None
  }

  fn withdraw(&mut self, _lent: &mut Lent, _record: &mut LentRecord, _k: u32) -> Option<Answer> {
    None
  }

  fn freeze(&mut self, _lent: &mut Lent, _record: &LentRecord, _range: [u32; 2]) -> Option<Answer> {
    None
  }

  fn set_marks(
    &mut self,
    _source: &[u8],
    _record: &mut LentRecord,
    _k: u32,
    _marks: u32,
  ) -> Option<Answer> {
    None
  }

  fn show_entry(
    &mut self,
    _source: &[u8],
    _record: &LentRecord,
    _reader: Reader,
    _k: u32,
    _out: &mut [u8],
  ) -> Option<Answer> {
    None
  }

  fn total(&mut self, _source: &[u8], _record: &LentRecord) -> Option<Answer> {
    None
  }

  fn join(&mut self, _lent: &mut Lent, _lists: [&[u8]; 2]) -> Option<Answer> {
    None
  }
}

impl Reading for Rules {
  fn run_sheet(&mut self, lent: &mut Lent, answers: &mut [u8]) -> Option<Answer> {
    Some(self.run(lent, answers))
  }
}

/// A core with these rules, and a right one beside, for the calls of which they make nothing.
#[derive(Clone)]
pub struct Wrong<R> {
  pub right: StandIn,
  pub rules: R,
}

impl<R: Reading> Core for Wrong<R> {
  fn name(&self) -> &'static str {
    "wrong"
  }

  fn call(&mut self, lent: &mut Lent, call: &Call, unseen: &Unseen, out: &mut [u8]) -> Answer {
    let answer = self.rules.call(lent, call);
    answer.unwrap_or_else(|| self.right.call(lent, call, unseen, out))
  }

  fn well_formed(&mut self, lent: &Lent) -> Answer {
    self.right.well_formed(lent)
  }

  fn run_sheet(&mut self, lent: &mut Lent, answers: &mut [u8]) -> Option<Answer> {
    let answer = self.rules.run_sheet(lent, answers);
    answer.or_else(|| self.right.run_sheet(lent, answers))
  }

  fn file(&mut self, lent: &mut Lent, record: &mut LentRecord, call: &[u8]) -> Option<Answer> {
    let answer = self.rules.file(lent, record, call);
    answer.or_else(|| self.right.file(lent, record, call))
  }

  fn withdraw(&mut self, lent: &mut Lent, record: &mut LentRecord, k: u32) -> Option<Answer> {
    let answer = self.rules.withdraw(lent, record, k);
    answer.or_else(|| self.right.withdraw(lent, record, k))
  }

  fn freeze(
    &mut self,
    lent: &mut Lent,
    record: &LentRecord,
    start: u32,
    end: u32,
  ) -> Option<Answer> {
    let answer = self.rules.freeze(lent, record, [start, end]);
    answer.or_else(|| self.right.freeze(lent, record, start, end))
  }

  fn set_marks(
    &mut self,
    source: &[u8],
    record: &mut LentRecord,
    k: u32,
    marks: u32,
  ) -> Option<Answer> {
    let answer = self.rules.set_marks(source, record, k, marks);
    answer.or_else(|| self.right.set_marks(source, record, k, marks))
  }

  fn show_entry(
    &mut self,
    source: &[u8],
    record: &LentRecord,
    reader: Reader,
    k: u32,
    out: &mut [u8],
  ) -> Option<Answer> {
    let answer = self.rules.show_entry(source, record, reader, k, out);
    answer.or_else(|| self.right.show_entry(source, record, reader, k, out))
  }

  fn total(&mut self, source: &[u8], record: &LentRecord) -> Option<Answer> {
    let answer = self.rules.total(source, record);
    answer.or_else(|| self.right.total(source, record))
  }

  fn join(&mut self, lent: &mut Lent, first: &[u8], second: &[u8]) -> Option<Answer> {
    let answer = self.rules.join(lent, [first, second]);
    answer.or_else(|| self.right.join(lent, first, second))
  }
}
