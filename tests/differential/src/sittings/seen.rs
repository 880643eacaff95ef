//! What is seen of an action before it is done, and what the reading makes of it.

use oracle::{Answer, Call, Desk, number};

use super::{
  Action, Sides,
  reading::{self, Record},
};
use crate::cores::function;

/// What was before in the sitting.
#[derive(Debug, Clone, Default)]
pub struct History {
  /// The source at the start.
  source: Option<Vec<u8>>,
  /// Whether the last call was withdrawn.
  pub is_emptied: bool,
  /// Whether the action before wrote marks.
  pub is_marked: bool,
}

impl History {
  /// Whether another source was opened.
  pub fn is_other(&self, source: &[u8]) -> bool {
    self.source.as_deref().is_some_and(|first| first != source)
  }

  /// Behind what was seen.
  pub fn behind(seen: &Seen) -> Self {
    let (image, _) = seen.sides.memory();
    let source = seen.history.source.clone().or_else(|| Some(image.source.clone()));
    let is_withdrawal = matches!(seen.action, Action::Withdraw(_));
    let left = seen.left_record.as_ref().is_some_and(|record| record.entries.is_empty());
    let is_emptied = left && (seen.history.is_emptied || is_withdrawal && !seen.has_filed(0));
    let is_marking = matches!(seen.action, Action::SetMarks { .. });
    let is_marked = is_marking && seen.answer.number == number::ACCEPTED;
    Self { source, is_emptied, is_marked }
  }
}

pub struct Seen<'a> {
  pub history: &'a History,
  pub action: &'a Action,
  pub sides: &'a Sides,
  /// The second record with its desk, if the sitting has one.
  pub second: Option<&'a Sides>,
  /// The call that is made on the desk, filed or not.
  pub call: Option<Call>,
  pub answer: Answer,
  pub record: Option<Record>,
  /// Desk and record behind it.
  pub left: Option<Desk>,
  pub left_record: Option<Record>,
}

impl<'a> Seen<'a> {
  pub fn of(
    history: &'a History,
    sides: &'a Sides,
    second: Option<&'a Sides>,
    action: &'a Action,
  ) -> Self {
    let record = sides.record();
    let (mut left, mut left_record) = (sides.desk().cloned(), record.clone());
    let answer = action.read(&mut left, left_record.as_mut());
    let call = match action {
      Action::File(bytes) => reading::one_call(bytes),
      Action::Make(made) => Some(made.call.clone()),
      &Action::Freeze { start, end } => Some(Call::Freeze { start, end }),
      _ => None,
    };
    Self { history, action, sides, second, call, answer, record, left, left_record }
  }

  /// The exported function that is called: of a filed call its own.
  pub fn function(&self) -> Option<String> {
    self.call.as_ref().map(function)
  }

  pub fn desk(&self) -> Option<&'a Desk> {
    self.sides.desk()
  }

  /// Whether so many calls are filed in a record that is well formed.
  pub fn has_filed(&self, count: usize) -> bool {
    self.record.as_ref().is_some_and(|record| record.entries.len() == count)
  }
}
