//! A core made of the oracle: it reads the desk out of the memory, lets the Rust
//! make the call, and lays the desk that is left out anew, with any of the
//! freedoms of the layout. It shows that the harness finds no difference where
//! there is none.

use oracle::{Call, Desk, apply, number, random::Random};

use super::{Core, Unseen, verdict};
use crate::{
  Answer, Lent, LentRecord, Sizes,
  image::{self, Style},
  joins::reading as joins,
  keeps,
  layout::{RECORD_ANSWERS, RECORD_MARKS, RECORD_USED},
  sheets::reading,
  sittings::reading::{self as sittings, Reader},
};

#[derive(Debug, Clone)]
pub struct StandIn {
  random: Random,
  any_size: bool,
}

impl StandIn {
  /// For the exported calls.
  pub fn new(seed: u64) -> Self {
    Self { random: Random::new(seed), any_size: false }
  }

  /// For the inner functions, which take desks of any size.
  pub fn of_any_size(seed: u64) -> Self {
    Self { any_size: true, ..Self::new(seed) }
  }

  fn open(&mut self, lent: &mut Lent) -> Answer {
    let Some(sizes) = lent.sizes().filter(|&sizes| self.takes(sizes)) else {
      return Answer::NO_DESK;
    };
    match Desk::open(sizes.limits(), lent.source) {
      Ok(desk) => {
        self.lay_out(sizes, &desk, lent);
        Answer::ACCEPTED
      }
      Err(number) => Answer { number, value: 0 },
    }
  }

  /// The desk in this memory; none where it is not well formed.
  fn desk(&mut self, lent: &Lent) -> Option<Desk> {
    let sizes = lent.sizes().filter(|_| self.well_formed(lent) == Answer::ACCEPTED)?;
    let data = image::decode(lent.source, lent.chunks, lent.pieces, lent.store);
    Some(Desk::build(sizes.limits(), &data))
  }

  fn lay_out(&mut self, sizes: Sizes, desk: &Desk, lent: &mut Lent) {
    let style = Style::any(&mut self.random).sized(sizes);
    let image = image::encode_in(style, &desk.data(), &mut self.random);
    lent.chunks.copy_from_slice(&image.chunks);
    lent.pieces.copy_from_slice(&image.pieces);
    lent.store.copy_from_slice(&image.store);
  }
}

impl Core for StandIn {
  fn name(&self) -> &'static str {
    "stand-in"
  }

  fn call(&mut self, lent: &mut Lent, call: &Call, _: &Unseen, out: &mut [u8]) -> Answer {
    if matches!(call, Call::Open { .. }) {
      return self.open(lent);
    }
    let (Some(sizes), Some(mut desk)) = (lent.sizes(), self.desk(lent)) else {
      return Answer::NO_DESK;
    };
    let mut call = call.clone();
    if let Some(room) = call.room_mut() {
      *room = Some(out.len() as u32);
    }
    let answer = apply(&mut desk, &call);
    if answer.number == number::ACCEPTED {
      out[..answer.bytes.len()].copy_from_slice(&answer.bytes);
    }
    if !keeps::every_byte(&call, answer.number) {
      self.lay_out(sizes, &desk, lent);
    }
    Answer { number: answer.number, value: answer.value }
  }

  fn well_formed(&mut self, lent: &Lent) -> Answer {
    verdict(self, lent)
  }

  fn takes(&self, sizes: Sizes) -> bool {
    self.any_size || sizes == Sizes::FULL
  }

  /// By the plain reading. There is no inner function for it.
  fn run_sheet(&mut self, lent: &mut Lent, answers: &mut [u8]) -> Option<Answer> {
    if self.any_size {
      return None;
    }
    let full = lent.sizes() == Some(Sizes::FULL);
    Some(match reading::run(lent.source, full, answers.len()) {
      Err(number) => Answer { number, value: 0 },
      Ok(ran) => {
        answers[..ran.answers.len()].copy_from_slice(&ran.answers);
        self.lay_out(Sizes::FULL, &ran.desk, lent);
        Answer { number: number::ACCEPTED, value: ran.answers.len() as u32 }
      }
    })
  }

  /// By the plain reading. There is no inner function for it.
  fn file(&mut self, lent: &mut Lent, record: &mut LentRecord, call: &[u8]) -> Option<Answer> {
    if self.any_size {
      return None;
    }
    let mut desk = self.desk(lent);
    let mut read = sittings::read(lent.source, record.words, record.bytes);
    let count = read.as_ref().map_or(0, |read| read.entries.len());
    let answer = sittings::file(desk.as_mut(), read.as_mut(), call);
    if let (Some(desk), Some(read)) = (desk, read)
      && let Some(filed) = read.entries.get(count)
    {
      record.write(&read.entries);
      if let Some(kept) = read.kept.filter(|_| count == 0) {
        record.keep(&image::encode(&kept.data(), &mut self.random));
      }
      if !keeps::every_byte(&filed.call, answer.number) {
        self.lay_out(Sizes::FULL, &desk, lent);
      }
    }
    Some(Answer { number: answer.number, value: answer.value })
  }

  /// By the plain reading, too. What it frees holds anything.
  fn withdraw(&mut self, lent: &mut Lent, record: &mut LentRecord, k: u32) -> Option<Answer> {
    if self.any_size {
      return None;
    }
    let mut desk = self.desk(lent);
    let mut read = sittings::read(lent.source, record.words, record.bytes);
    let answer = sittings::withdraw(desk.as_mut(), read.as_mut(), k);
    if let (Some(desk), Some(read), number::ACCEPTED) = (desk, read, answer.number) {
      let used = record.words[RECORD_USED] as usize;
      record.bytes[..used].fill(self.random.number() as u8);
      for freed in [RECORD_ANSWERS, RECORD_MARKS] {
        record.bytes[freed + read.entries.len()] = self.random.number() as u8;
      }
      record.write(&read.entries);
      self.lay_out(Sizes::FULL, &desk, lent);
    }
    Some(Answer { number: answer.number, value: answer.value })
  }

  /// By the plain reading, too.
  fn freeze(
    &mut self,
    lent: &mut Lent,
    record: &LentRecord,
    start: u32,
    end: u32,
  ) -> Option<Answer> {
    if self.any_size {
      return None;
    }
    let mut desk = self.desk(lent);
    let read = sittings::read(lent.source, record.words, record.bytes);
    let answer = sittings::freeze(desk.as_mut(), read.as_ref(), start, end);
    if let Some(desk) = desk
      && !keeps::every_byte(&Call::Freeze { start, end }, answer.number)
    {
      self.lay_out(Sizes::FULL, &desk, lent);
    }
    Some(Answer { number: answer.number, value: answer.value })
  }

  /// By the plain reading, too.
  fn set_marks(
    &mut self,
    source: &[u8],
    record: &mut LentRecord,
    k: u32,
    marks: u32,
  ) -> Option<Answer> {
    if self.any_size {
      return None;
    }
    let mut read = sittings::read(source, record.words, record.bytes);
    let answer = sittings::set_marks(read.as_mut(), k, marks);
    if answer.number == number::ACCEPTED {
      read.iter().for_each(|read| record.write(&read.entries));
    }
    Some(Answer { number: answer.number, value: answer.value })
  }

  /// By the plain reading, too.
  fn show_entry(
    &mut self,
    source: &[u8],
    record: &LentRecord,
    reader: Reader,
    k: u32,
    out: &mut [u8],
  ) -> Option<Answer> {
    if self.any_size {
      return None;
    }
    let read = sittings::read(source, record.words, record.bytes);
    let answer = sittings::show_entry(read.as_ref(), reader, k, out.len());
    out[..answer.bytes.len()].copy_from_slice(&answer.bytes);
    Some(Answer { number: answer.number, value: answer.value })
  }

  /// By the plain reading, too.
  fn total(&mut self, source: &[u8], record: &LentRecord) -> Option<Answer> {
    if self.any_size {
      return None;
    }
    let read = sittings::read(source, record.words, record.bytes);
    let answer = sittings::total(read.as_ref());
    Some(Answer { number: answer.number, value: answer.value })
  }

  /// By the plain reading, too.
  fn join(&mut self, lent: &mut Lent, first: &[u8], second: &[u8]) -> Option<Answer> {
    if self.any_size {
      return None;
    }
    let mut desk = self.desk(lent);
    let answer = joins::join(desk.as_mut(), [first, second]);
    if let Some(desk) = desk
      && !joins::keeps_every_byte(&answer, [first, second])
    {
      self.lay_out(Sizes::FULL, &desk, lent);
    }
    Some(Answer { number: answer.number, value: answer.value })
  }
}
