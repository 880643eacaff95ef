use std::fmt;

use crate::{Kind, text::quoted};

/// A record of a sheet: a call with its positions and its text.
#[derive(Debug, Clone, PartialEq, Eq)]
pub struct Record<'a> {
  /// Which call it is.
  pub kind: Kind,
  /// As many positions as the kind has.
  pub positions: Vec<u32>,
  /// Empty if the kind has none.
  pub text: &'a [u8],
}

impl Record<'_> {
  /// Its bytes, or none if its text is too long for a record's length.
  pub fn bytes(&self) -> Option<Vec<u8>> {
    let length = u16::try_from(self.kind.length() + self.text.len()).ok()?;
    let mut bytes = length.to_be_bytes().to_vec();
    bytes.push(self.kind.byte());
    bytes.extend(self.positions.iter().flat_map(|position| position.to_be_bytes()));
    bytes.extend(self.text);
    Some(bytes)
  }
}

/// The line of a script.
impl fmt::Display for Record<'_> {
  fn fmt(&self, out: &mut fmt::Formatter) -> fmt::Result {
    write!(out, "{}", self.kind.name())?;
    self.positions.iter().try_for_each(|position| write!(out, " {position}"))?;
    match self.kind.has_text() {
      true => write!(out, " {}", quoted(self.text)),
      false => Ok(()),
    }
  }
}
