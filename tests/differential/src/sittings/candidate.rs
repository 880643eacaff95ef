//! A candidate chooses actions at random, aimed at the desk as those before them leave it.

use oracle::{Call, Desk, DeskData, Limits, random::Random};

use super::{
  Action, Kept, Sitting, Written,
  memory::call_bytes,
  reading::{Entry, Record},
};
use crate::{Start, made, papers::Caller, sheets::call_changed};

/// Chooses actions, and does them by the reading.
pub struct Candidate {
  start: DeskData,
  written: Written,
  pub caller: Caller,
  pub record: Record,
  actions: Vec<Action>,
  pub random: Random,
}

impl Candidate {
  /// At this desk, with an empty record.
  pub fn new(desk: DeskData, random: &mut Random) -> Self {
    Self {
      caller: Caller::new(desk.clone(), random.number()),
      start: desk,
      written: Written::calls(&[]),
      record: Record::default(),
      actions: Vec::new(),
      random: Random::new(random.number()),
    }
  }

  /// With these calls in the record, which may have any answers and marks, and this desk
  /// kept, over the same source.
  pub fn with_calls(self, calls: Vec<Call>, kept: DeskData) -> Self {
    let desk = (!calls.is_empty()).then(|| Desk::build(Limits::FULL, &kept));
    let written = Written { kept: Kept::Desk(kept), ..Written::calls(&calls) };
    let entries = calls.into_iter().map(|call| Entry { call, answer: 0, marks: 0 }).collect();
    Self { written, record: Record { entries, kept: desk }, ..self }
  }

  pub fn sitting(mut self, tries: &'static str) -> Sitting {
    let start = Start::Desk { desk: self.start, seed: self.random.number() };
    let seed = self.random.number();
    let (record, actions) = (self.written, self.actions);
    Sitting { tries, start, harm: None, record, other_marks: None, actions, seed }
  }

  /// So many actions.
  pub fn any(&mut self, count: usize) {
    for _ in 0..count {
      match self.random.below(20) {
        0..=10 => self.file_any(),
        11..=14 => self.withdraw_any(),
        15 => {
          let count = self.record.entries.len() as u32;
          let k = [0, count + 1, count + 2, count + 0x100, u32::MAX][self.random.below(5)];
          self.withdraw(k);
        }
        16 => self.file_changed(),
        17 => self.open_anew(),
        _ => self.make_any(),
      }
    }
  }

  pub fn file_any(&mut self) {
    let call = self.caller.in_sheet();
    self.file(call);
  }

  /// With as much of its text as a record's length allows.
  pub fn file(&mut self, mut call: Call) {
    let room = usize::from(u16::MAX) - 1 - 4 * call.positions().len();
    if let Some(text) = call.text_mut() {
      text.truncate(room);
    }
    self.file_bytes(call_bytes(&call));
  }

  /// A call that breaks a rule, most often.
  fn file_changed(&mut self) {
    let call = self.caller.in_sheet();
    if is_short(&call) {
      let bytes = call_changed(&call, &mut self.random);
      self.file_bytes(bytes);
    }
  }

  fn file_bytes(&mut self, bytes: Vec<u8>) {
    self.act(Action::File(bytes));
  }

  /// Changes desk and record by the reading. Over another source than the kept desk's the
  /// record is none, most often.
  pub fn act(&mut self, action: Action) {
    let record = &mut self.record;
    self.caller.change(|desk| {
      let source = |desk: &Desk| desk.magic_string().source().to_string();
      let is_of_desk = record.kept.as_ref().is_none_or(|kept| source(kept) == source(desk));
      let mut left = Some(desk.clone());
      action.read(&mut left, is_of_desk.then_some(record));
      left.into_iter().for_each(|left| *desk = left);
    });
    self.actions.push(action);
  }

  /// One of the calls that are filed, often the first or the last.
  pub fn withdraw_any(&mut self) {
    let count = self.record.entries.len();
    if count > 0 {
      let any = self.random.between(1, count);
      let k = [1, count, any, any][self.random.below(4)];
      self.withdraw(k as u32);
    }
  }

  pub fn withdraw(&mut self, k: u32) {
    self.act(Action::Withdraw(k));
  }

  pub fn freeze(&mut self, start: u32, end: u32) {
    self.act(Action::Freeze { start, end });
  }

  pub fn freeze_any(&mut self) {
    let (start, end) = self.caller.frozen_range();
    self.freeze(start, end);
  }

  /// A call that is not filed, an edit most often.
  pub fn make_any(&mut self) {
    let made = self.caller.call_on_desk();
    self.actions.push(Action::Make(made));
  }

  pub fn make(&mut self, call: Call) {
    let made = self.caller.made(call);
    self.actions.push(Action::Make(made));
  }

  /// Opens the same source or another, sometimes one that is refused. The record stays.
  pub fn open_anew(&mut self) {
    let source = match self.random.below(3) {
      0 => self.caller.source(),
      1 => made::text(self.random.between(0, 24), &mut self.random).into_bytes(),
      _ => self.start.source.clone().into_bytes(),
    };
    self.make(Call::Open { source });
  }
}

/// Whether it can be changed in many ways without many bytes.
pub fn is_short(call: &Call) -> bool {
  call.text().is_none_or(|text| text.len() < 1_000)
}
