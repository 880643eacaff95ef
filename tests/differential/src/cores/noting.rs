//! A core that notes what its calls give.

use oracle::Call;

use super::{Core, Unseen};
use crate::{Answer, Lent, LentRecord, Sizes, sittings::reading::Reader};

/// What is seen of a call outside the memory of desk and record: number and value, none
/// where the core has no such call, and the lent buffer behind it.
pub type Noted = (Option<Answer>, Vec<u8>);

/// Hands each call to the core.
pub struct Noting<'a, C> {
  core: &'a mut C,
  pub noted: Vec<Noted>,
}

impl<'a, C> Noting<'a, C> {
  pub fn new(core: &'a mut C) -> Self {
    Self { core, noted: Vec::new() }
  }

  fn note(&mut self, answer: Option<Answer>, buffer: &[u8]) -> Option<Answer> {
    self.noted.push((answer, buffer.to_vec()));
    answer
  }
}

impl<C: Core> Core for Noting<'_, C> {
  fn name(&self) -> &'static str {
    self.core.name()
  }

  fn call(&mut self, lent: &mut Lent, call: &Call, unseen: &Unseen, out: &mut [u8]) -> Answer {
    let answer = self.core.call(lent, call, unseen, out);
    self.note(Some(answer), out);
    answer
  }

  fn has(&self, call: &Call) -> bool {
    self.core.has(call)
  }

  fn well_formed(&mut self, lent: &Lent) -> Answer {
    let answer = self.core.well_formed(lent);
    self.note(Some(answer), &[]);
    answer
  }

  fn takes(&self, sizes: Sizes) -> bool {
    self.core.takes(sizes)
  }

  fn run_sheet(&mut self, lent: &mut Lent, answers: &mut [u8]) -> Option<Answer> {
    let answer = self.core.run_sheet(lent, answers);
    self.note(answer, answers)
  }

  fn file(&mut self, lent: &mut Lent, record: &mut LentRecord, call: &[u8]) -> Option<Answer> {
    let answer = self.core.file(lent, record, call);
    self.note(answer, &[])
  }

  fn withdraw(&mut self, lent: &mut Lent, record: &mut LentRecord, k: u32) -> Option<Answer> {
    let answer = self.core.withdraw(lent, record, k);
    self.note(answer, &[])
  }

  fn freeze(
    &mut self,
    lent: &mut Lent,
    record: &LentRecord,
    start: u32,
    end: u32,
  ) -> Option<Answer> {
    let answer = self.core.freeze(lent, record, start, end);
    self.note(answer, &[])
  }

  fn set_marks(
    &mut self,
    source: &[u8],
    record: &mut LentRecord,
    k: u32,
    marks: u32,
  ) -> Option<Answer> {
    let answer = self.core.set_marks(source, record, k, marks);
    self.note(answer, &[])
  }

  fn show_entry(
    &mut self,
    source: &[u8],
    record: &LentRecord,
    reader: Reader,
    k: u32,
    out: &mut [u8],
  ) -> Option<Answer> {
    let answer = self.core.show_entry(source, record, reader, k, out);
    self.note(answer, out)
  }

  fn total(&mut self, source: &[u8], record: &LentRecord) -> Option<Answer> {
    let answer = self.core.total(source, record);
    self.note(answer, &[])
  }

  fn join(&mut self, lent: &mut Lent, first: &[u8], second: &[u8]) -> Option<Answer> {
    let answer = self.core.join(lent, first, second);
    self.note(answer, &[])
  }
}
