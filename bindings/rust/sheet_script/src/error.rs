use std::{error::Error, fmt};

/// Why a script makes no sheet, or no list.
#[derive(Debug, Clone, PartialEq, Eq)]
pub struct ScriptError {
  /// The line, counted from 1.
  pub line: usize,
  /// What is wrong with it.
  pub what: String,
}

impl fmt::Display for ScriptError {
  fn fmt(&self, out: &mut fmt::Formatter) -> fmt::Result {
    write!(out, "line {}: {}", self.line, self.what)
  }
}

impl Error for ScriptError {}

/// Why bytes are no sheet, or no list.
#[derive(Debug, Clone, PartialEq, Eq)]
pub struct SheetError {
  /// The record, counted from 1; none before the records.
  pub record: Option<usize>,
  /// The byte, counted from 0.
  pub byte: usize,
  /// What is wrong there.
  pub what: String,
}

impl fmt::Display for SheetError {
  fn fmt(&self, out: &mut fmt::Formatter) -> fmt::Result {
    if let Some(record) = self.record {
      write!(out, "record {record}, ")?;
    }
    write!(out, "byte {}: {}", self.byte, self.what)
  }
}

impl Error for SheetError {}
