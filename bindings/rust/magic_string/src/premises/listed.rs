use std::fmt;

use sheet_script::{Kind, Record};

use super::Broken;

/// Which of the two lists.
#[derive(Debug, Clone, Copy, PartialEq, Eq)]
pub enum ListName {
  /// The first list.
  First,
  /// The second list.
  Second,
}

impl fmt::Display for ListName {
  fn fmt(&self, out: &mut fmt::Formatter) -> fmt::Result {
    out.pad(match self {
      ListName::First => "the first list",
      ListName::Second => "the second list",
    })
  }
}

/// A call of one of the two lists.
#[derive(Debug, Clone, PartialEq, Eq)]
pub struct Listed<'a> {
  /// The list that it stands in.
  pub list: ListName,
  /// Its number there, counted from 1.
  pub number: usize,
  /// The call itself.
  pub record: Record<'a>,
}

/// All calls, those of the first list before those of the second; or the lists that break
/// the rules of their form.
pub(super) fn read<'a>(
  first: &'a [u8],
  second: &'a [u8],
) -> Result<Vec<Listed<'a>>, Vec<Broken<'a>>> {
  let (mut calls, mut no_lists) = (Vec::new(), Vec::new());
  for (list, bytes) in [(ListName::First, first), (ListName::Second, second)] {
    match sheet_script::list(bytes) {
      Ok(records) => {
        let numbered = (1..).zip(records);
        calls.extend(numbered.map(|(number, record)| Listed { list, number, record }));
      }
      Err(error) => no_lists.push(Broken::NoList { list, error }),
    }
  }
  if no_lists.is_empty() { Ok(calls) } else { Err(no_lists) }
}

impl Listed<'_> {
  /// The range of a removal, replacement or reset.
  pub(super) fn range(&self) -> Option<(u32, u32)> {
    match (self.record.kind, &self.record.positions[..]) {
      (Kind::Remove | Kind::Update | Kind::Reset, &[start, end]) => Some((start, end)),
      _ => None,
    }
  }

  /// The range that a replacement replaces.
  pub(super) fn replaced(&self) -> Option<(u32, u32)> {
    self.range().filter(|_| self.record.kind == Kind::Update)
  }

  pub(super) fn is_move(&self) -> bool {
    self.record.kind == Kind::Relocate
  }
}

/// Where the call stands, and its name and positions. Its text is left out, since it may be
/// long.
impl fmt::Display for Listed<'_> {
  fn fmt(&self, out: &mut fmt::Formatter) -> fmt::Result {
    let Listed { list, number, record } = self;
    write!(out, "call {number} of {list} ({}", record.kind.name())?;
    match &record.positions[..] {
      [at] => write!(out, " at {at})"),
      [start, end] => write!(out, " {start} to {end})"),
      [start, end, to] => write!(out, " {start} to {end} before {to})"),
      _ => unreachable!("a record has one to three positions"),
    }
  }
}
