//! What is done in a sitting.

use std::fmt;

use oracle::{Answer, Call, Desk, apply, hex, number};

use super::{
  memory::call_bytes,
  reading::{self, Reader, Record},
};
use crate::{
  Made,
  joins::{self, Lists},
  sheets,
};

#[derive(Debug, Clone)]
pub enum Action {
  /// Files the call of these bytes.
  File(Vec<u8>),
  /// Withdraws the call with this number.
  Withdraw(u32),
  /// Makes a call that is not filed.
  Make(Made),
  /// Freezes the bytes from start up to end.
  Freeze { start: u32, end: u32 },
  /// Joins two lists of calls, which are not filed.
  Join(Lists),
  /// Runs a sheet, with room for so many answers: the desk is opened anew.
  RunSheet { sheet: Vec<u8>, room: usize },
  /// Asks whether the desk is well formed.
  WellFormed,
  /// Shows the entry with this number, in a buffer of so many bytes.
  Show { reader: Reader, k: u32, room: usize },
  /// Writes the marks of the entry with this number.
  SetMarks { k: u32, marks: u32 },
  /// Adds up the marks.
  Total,
}

impl Action {
  pub fn file(call: &Call) -> Self {
    Action::File(call_bytes(call))
  }

  /// Whether it is no matter of the examiner's.
  pub fn is_members(&self) -> bool {
    !matches!(
      self,
      Action::SetMarks { .. } | Action::Total | Action::Show { reader: Reader::Examiner, .. }
    )
  }

  /// Whether it opens the desk anew.
  pub fn is_opening(&self) -> bool {
    match self {
      Action::Make(Made { call, .. }) => matches!(call, Call::Open { .. }),
      _ => matches!(self, Action::RunSheet { .. }),
    }
  }

  /// Does it by the plain readings. Desk and record are none where they are not well formed.
  pub fn read(&self, desk: &mut Option<Desk>, record: Option<&mut Record>) -> Answer {
    match self {
      Action::File(call) => reading::file(desk.as_mut(), record, call),
      Action::Withdraw(k) => reading::withdraw(desk.as_mut(), record, *k),
      &Action::Freeze { start, end } => {
        reading::freeze(desk.as_mut(), record.as_deref(), start, end)
      }
      Action::Make(Made { call, .. }) => {
        let no_desk = || Answer::number(number::NOT_WELL_FORMED);
        desk.as_mut().map_or_else(no_desk, |desk| apply(desk, call))
      }
      Action::Join(lists) => joins::reading::join(desk.as_mut(), lists.slices()),
      Action::RunSheet { sheet, room } => match sheets::reading::run(sheet, true, *room) {
        Err(number) => Answer::number(number),
        Ok(ran) => {
          *desk = Some(ran.desk);
          Answer::written(ran.answers, None)
        }
      },
      Action::WellFormed => {
        let is_desk = desk.is_some();
        Answer::number(if is_desk { number::ACCEPTED } else { number::NOT_WELL_FORMED })
      }
      &Action::Show { reader, k, room } => reading::show_entry(record.as_deref(), reader, k, room),
      &Action::SetMarks { k, marks } => reading::set_marks(record, k, marks),
      Action::Total => reading::total(record.as_deref()),
    }
  }
}

impl fmt::Display for Action {
  fn fmt(&self, out: &mut fmt::Formatter) -> fmt::Result {
    match self {
      Action::File(bytes) => match reading::one_call(bytes) {
        Some(call) => write!(out, "file {call}"),
        None => write!(out, "file {} (it breaks the rules)", hex::encode(bytes)),
      },
      Action::Withdraw(k) => write!(out, "withdraw {k}"),
      Action::Make(Made { call, .. }) => write!(out, "{call}"),
      Action::Freeze { start, end } => write!(out, "freeze {start} {end}, beside the record"),
      Action::Join(lists) => write!(out, "join\n{lists}"),
      Action::RunSheet { sheet, room } => {
        write!(out, "run_sheet {}, room for {room} answers", hex::encode(sheet))
      }
      Action::WellFormed => write!(out, "well_formed"),
      Action::Show { reader, k, room } => {
        write!(out, "{} {k}, room for {room} bytes", reader.function())
      }
      Action::SetMarks { k, marks } => write!(out, "set_marks {k} {marks}"),
      Action::Total => write!(out, "total"),
    }
  }
}
