//! The examiner's column on both sides, marks written, entries shown and the total; and two
//! records that differ in nothing else.

use oracle::{Answer as Expected, random::Random};

use super::{
  Sides,
  reading::{self, Reader},
  sides::Before,
};
use crate::{Answer, Core, layout::RECORD_MARKS, out::Out};

/// What the reading gives, none where the core has no such call; or what differs.
type Compared = Result<Option<Expected>, String>;

impl Sides {
  /// Writes the marks of the k-th entry: no byte but this one changes.
  pub fn set_marks(&mut self, core: &mut impl Core, k: u32, marks: u32) -> Compared {
    let Before { memory: mut left, mut record } = self.begin();
    let answer = core.set_marks(&self.desk.image.source, &mut self.memory.lend(), k, marks);
    let Some(answer) = answer else { return Ok(None) };
    let expected = reading::set_marks(record.as_mut(), k, marks);
    if expected.number == Answer::ACCEPTED.number {
      left.bytes.lend()[RECORD_MARKS + k as usize - 1] = marks as u8;
    }
    self.end(answer, &expected, true)?;
    self.memory.same_as(&left)?;
    Ok(Some(expected))
  }

  /// Shows the k-th entry in a buffer of so many bytes, of which none is written behind it.
  pub fn show_entry(
    &mut self,
    core: &mut impl Core,
    reader: Reader,
    k: u32,
    room: usize,
    random: &mut Random,
  ) -> Compared {
    let Before { memory, record } = self.begin();
    let mut out = Out::new(room, random);
    let source = &self.desk.image.source;
    let answer = core.show_entry(source, &self.memory.lend(), reader, k, out.lend());
    let Some(answer) = answer else { return Ok(None) };
    let expected = reading::show_entry(record.as_ref(), reader, k, room);
    self.end(answer, &expected, true)?;
    out.check(&expected.bytes)?;
    self.memory.same_as(&memory)?;
    Ok(Some(expected))
  }

  /// Adds up the marks.
  pub fn total(&mut self, core: &mut impl Core) -> Compared {
    let Before { memory, record } = self.begin();
    let answer = core.total(&self.desk.image.source, &self.memory.lend());
    let Some(answer) = answer else { return Ok(None) };
    let expected = reading::total(record.as_ref());
    self.end(answer, &expected, true)?;
    self.memory.same_as(&memory)?;
    Ok(Some(expected))
  }

  /// Each byte of the other memory, of desk and record, is the same, but for the marks.
  pub fn same_but_marks(&self, other: &Self) -> Result<(), String> {
    if self.desk.image != other.desk.image {
      return Err("the memory of the desk is other".to_string());
    }
    other.memory.same_as(&self.memory.clone().with_marks(other.memory.marks()))
  }
}
