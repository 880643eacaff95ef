//! Two lists of calls as they are handed in.

use std::fmt;

use oracle::{Call, hex};

use super::reading;
use crate::sheets::fields::{Fields, Record, split_list};

#[derive(Debug, Clone, Default, PartialEq, Eq)]
pub struct Lists {
  pub first: Vec<u8>,
  pub second: Vec<u8>,
}

impl Lists {
  /// The lists of these calls.
  pub fn of(first: &[Call], second: &[Call]) -> Self {
    Self { first: list(first), second: list(second) }
  }

  pub fn slices(&self) -> [&[u8]; 2] {
    [&self.first, &self.second]
  }

  /// The same in the other order.
  pub fn turned(self) -> Self {
    Self { first: self.second, second: self.first }
  }
}

/// The records of these calls.
pub fn list(calls: &[Call]) -> Vec<u8> {
  Fields::of(b"", calls).list()
}

/// The bytes of each whole record at the front of a list.
pub fn records(list: &[u8]) -> Vec<Vec<u8>> {
  split_list(list).0.iter().map(Record::bytes).collect()
}

/// The calls of each list, or its bytes where it breaks a rule.
impl fmt::Display for Lists {
  fn fmt(&self, out: &mut fmt::Formatter) -> fmt::Result {
    for (name, list) in [("first", &self.first), ("second", &self.second)] {
      match reading::read(list) {
        Some(calls) => {
          writeln!(out, "# the {name} list: {} calls, {} bytes", calls.len(), list.len())?;
          calls.iter().try_for_each(|call| writeln!(out, "{call}"))?;
        }
        None => {
          writeln!(out, "# the {name} list, which breaks the rules: {} bytes", list.len())?;
          writeln!(out, "# {}", hex::encode(list))?;
        }
      }
    }
    Ok(())
  }
}
