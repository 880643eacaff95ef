//! A call filed or withdrawn, a freezing beside a record, and what else a sitting has, on both
//! sides, and everything that must agree after it.

use oracle::{Answer as Expected, Call, Desk, random::Random};

use super::{
  memory::{Cells, Memory},
  reading::{self, Entry, Record},
};
use crate::{
  Answer, Core, Image, Made, Met,
  joins::{
    Lists,
    run::{Order, join},
  },
  keeps,
  sheets::{reading::Ran, run::run_in},
  step::{Both, check_answer},
};

/// The desk as the reading has it and as the core's memory, and the record's memory.
#[derive(Debug, Clone)]
pub struct Sides {
  pub(super) desk: Both,
  pub(super) memory: Memory,
  /// Whether the answers in the record are what its calls got: of one that was made by
  /// hand they are not.
  is_answered: bool,
}

/// What is counted of a call that was filed or refused.
#[derive(Debug, Clone, Copy, PartialEq, Eq)]
pub struct Filing {
  pub number: u32,
  pub is_filed: bool,
  pub cuts: u32,
}

/// What is counted of a withdrawal: of the later calls, how many went from accepted to
/// refused, and back; whether the kept desk was not fresh, and whether edits were lost, which
/// neither it nor the filed calls have.
#[derive(Debug, Clone, Copy, PartialEq, Eq)]
pub struct Withdrawal {
  pub number: u32,
  pub to_refused: u64,
  pub to_accepted: u64,
  pub of_desk_in_use: bool,
  pub loses_edits: bool,
}

/// What stood in the record's memory, and the record that it was: none where it was not well
/// formed.
pub(super) struct Before {
  pub memory: Memory,
  pub record: Option<Record>,
}

impl Sides {
  pub fn of(image: Image, memory: Memory) -> Self {
    let mut sides = Self { desk: Both::of_any(image), memory, is_answered: false };
    sides.is_answered = sides.record().is_some_and(|record| record.entries.is_empty());
    sides
  }

  /// The desk; none where the memory is not well formed.
  pub fn desk(&self) -> Option<&Desk> {
    self.desk.desk.as_ref()
  }

  /// The desk's memory, and the record's.
  pub fn memory(&self) -> (&Image, &Memory) {
    (&self.desk.image, &self.memory)
  }

  /// The record; none where its memory is not well formed beside the lent source.
  pub fn record(&self) -> Option<Record> {
    let Self { desk, memory, .. } = self;
    reading::read(&desk.image.source, memory.words.lent(), memory.bytes.lent())
  }

  /// The core takes the desk's memory for what it is.
  pub fn check_desk(&mut self, core: &mut impl Core) -> Result<(), String> {
    self.desk.check_start(core)
  }

  /// Makes a call that is not filed.
  pub fn make(&mut self, core: &mut impl Core, made: &Made) -> Result<Met, String> {
    self.desk.step(core, made)
  }

  /// Joins two lists of calls, which are not filed. What the reading gives, none where the
  /// core joins no lists; or what differs.
  pub fn join(
    &mut self,
    core: &mut impl Core,
    lists: &Lists,
    random: &mut Random,
  ) -> Result<Option<Expected>, String> {
    join(core, &mut self.desk, lists, Order::FirstSecond, random)
  }

  /// Runs a sheet, with room for so many answers: its source is the desk's from then on. What
  /// the reading gives, none where the core runs no sheets; or what differs.
  pub fn run_sheet(
    &mut self,
    core: &mut impl Core,
    sheet: &[u8],
    room: usize,
    random: &mut Random,
  ) -> Result<Option<Result<Ran, u32>>, String> {
    let mut memory = Image { source: sheet.to_vec(), ..self.desk.image.clone() };
    let ran = run_in(core, &mut memory, room, random)?;
    if let Some(Ok(ran)) = &ran {
      self.desk.image = memory;
      self.desk.desk = Some(ran.desk.clone());
    }
    Ok(ran)
  }

  /// Files the call of these bytes. What is counted of it, none where the core files no
  /// calls; or what differs.
  pub fn file(
    &mut self,
    core: &mut impl Core,
    call: &[u8],
    random: &mut Random,
  ) -> Result<Option<Filing>, String> {
    let Before { memory, mut record } = self.begin();
    let count = count(&record);
    let lent = Cells::of(call, random, |random| random.number() as u8);
    let call_before = lent.clone();
    let answer = core.file(&mut self.desk.image.lend(), &mut self.memory.lend(), lent.lent());
    let Some(answer) = answer else { return Ok(None) };
    let expected = reading::file(self.desk.desk.as_mut(), record.as_mut(), call);

    let filed = record.as_ref().and_then(|record| record.entries.get(count));
    let kept = filed.is_none_or(|entry| keeps::every_byte(&entry.call, expected.number));
    let is_filed = filed.is_some();
    if lent != call_before {
      return Err("the call changed".to_string());
    }
    self.end(answer, &expected, kept)?;
    self.check_record(memory, count, record)?;
    Ok(Some(Filing { number: expected.number, is_filed, cuts: expected.value }))
  }

  /// Withdraws the k-th call. What is counted of it, none where the core withdraws no
  /// calls; or what differs.
  pub fn withdraw(&mut self, core: &mut impl Core, k: u32) -> Result<Option<Withdrawal>, String> {
    let Before { memory, mut record } = self.begin();
    let old = record.clone().unwrap_or_default();
    let desk = self.desk.desk.clone();
    let answer = core.withdraw(&mut self.desk.image.lend(), &mut self.memory.lend(), k);
    let Some(answer) = answer else { return Ok(None) };
    let expected = reading::withdraw(self.desk.desk.as_mut(), record.as_mut(), k);

    let is_done = expected.number == 0;
    let entries = record.as_ref().map_or(Vec::new(), |record| record.entries.clone());
    self.end(answer, &expected, !is_done)?;
    self.check_record(memory, old.entries.len(), record)?;
    let later = k as usize;
    let [to_refused, to_accepted] = match is_done && self.is_answered {
      true => turned(&old.entries[later..], &entries[later - 1..]),
      false => [0, 0],
    };
    self.is_answered |= is_done;
    Ok(Some(Withdrawal {
      number: expected.number,
      to_refused,
      to_accepted,
      of_desk_in_use: is_done && old.kept.as_ref().is_some_and(is_in_use),
      loses_edits: is_done && desk.is_some_and(|desk| !is_given_by(&old, &desk)),
    }))
  }

  /// Freezes the bytes from start up to end. What the reading gives, none where the core
  /// freezes nothing; or what differs.
  pub fn freeze(
    &mut self,
    core: &mut impl Core,
    start: u32,
    end: u32,
  ) -> Result<Option<Expected>, String> {
    let Before { memory, record } = self.begin();
    let answer = core.freeze(&mut self.desk.image.lend(), &self.memory.lend(), start, end);
    let Some(answer) = answer else { return Ok(None) };
    let expected = reading::freeze(self.desk.desk.as_mut(), record.as_ref(), start, end);
    let kept = keeps::every_byte(&Call::Freeze { start, end }, expected.number);
    self.end(answer, &expected, kept)?;
    self.memory.same_as(&memory)?;
    Ok(Some(expected))
  }

  pub(super) fn begin(&mut self) -> Before {
    self.desk.begin();
    Before { memory: self.memory.clone(), record: self.record() }
  }

  /// The answer is the one expected, and the desk is the reading's, or each byte of it as it
  /// was.
  pub(super) fn end(&self, answer: Answer, expected: &Expected, kept: bool) -> Result<(), String> {
    check_answer(answer, expected)?;
    self.desk.end(kept)
  }

  /// The reading's record stands in the memory, where so many calls were filed before, and
  /// every other cell is as it was, but those that a withdrawal frees: these hold anything.
  /// Where the first call was filed, the desk that it found is kept, in rows and bytes of the
  /// core's choice.
  fn check_record(
    &self,
    before: Memory,
    count: usize,
    record: Option<Record>,
  ) -> Result<(), String> {
    let mut left = before;
    if let Some(Record { entries, kept }) = record {
      let used = left.used();
      left.lend().write(&entries);
      left.take_over(&self.memory, left.used()..used, entries.len()..count);
      if let Some(kept) = kept.filter(|_| count == 0) {
        let tables = self.memory.kept(&self.desk.image.source);
        tables.check_desk(&kept.data()).map_err(|what| format!("kept, {what}"))?;
        left.lend().keep(&tables);
      }
    }
    self.memory.same_as(&left)
  }
}

/// How many calls are filed.
fn count(record: &Option<Record>) -> usize {
  record.as_ref().map_or(0, |record| record.entries.len())
}

/// Whether anything was done on the desk since it was opened.
fn is_in_use(desk: &Desk) -> bool {
  desk.data() != super::sitting::fresh(desk.magic_string().source())
}

/// Whether the desk is what the filed calls leave of the kept one.
fn is_given_by(record: &Record, desk: &Desk) -> bool {
  let mut given = record.kept.clone();
  for entry in &record.entries {
    given.as_mut().map(|given| oracle::apply(given, &entry.call));
  }
  given.is_some_and(|given| given.data() == desk.data())
}

/// How many calls were accepted and are refused now, and back.
fn turned(old: &[Entry], new: &[Entry]) -> [u64; 2] {
  let each = old.iter().zip(new).map(|(old, new)| (old.answer == 0, new.answer == 0));
  let [mut to_refused, mut to_accepted] = [0, 0];
  for (was_accepted, is_accepted) in each {
    to_refused += (was_accepted && !is_accepted) as u64;
    to_accepted += (!was_accepted && is_accepted) as u64;
  }
  [to_refused, to_accepted]
}
