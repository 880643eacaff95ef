//! A list of calls that is written call by call, within its limits.

use crate::{
  line::Line,
  new_records::{NewRecords, check_size},
};

const LIST: &str = "a list";

#[derive(Default)]
pub struct NewList(NewRecords);

impl NewList {
  /// Adds what a line says.
  pub fn add(&mut self, line: &Line) -> Result<(), String> {
    match line {
      Line::Blank => Ok(()),
      Line::Source(_) => Err(format!("{LIST} has no source")),
      Line::Call(call) => {
        self.0.add(&call.record(), LIST)?;
        check_size(self.0.bytes.len(), LIST)
      }
    }
  }

  /// The whole list.
  pub fn bytes(self) -> Vec<u8> {
    self.0.bytes
  }
}
