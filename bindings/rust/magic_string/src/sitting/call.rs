use std::fmt;

use sheet_script::{Kind, Record};

use crate::{
  End::{self, *},
  Side::{self, *},
};

/// A call that [`Sitting::file`](crate::Sitting::file) makes and files, or that stands in a
/// [list](Self::list): an edit that a sheet may have. Its [`Display`](fmt::Display) is the
/// line of a script (crate `sheet_script`).
#[derive(Debug, Clone, Copy, PartialEq, Eq)]
pub enum Call<'a> {
  /// [`MagicString::remove`](crate::MagicString::remove).
  Remove {
    /// The first byte.
    start: u32,
    /// The first byte behind.
    end: u32,
  },
  /// [`MagicString::update_with`](crate::MagicString::update_with), with overwrite.
  Update {
    /// The first byte.
    start: u32,
    /// The first byte behind.
    end: u32,
    /// What replaces the range.
    text: &'a str,
  },
  /// [`MagicString::reset`](crate::MagicString::reset).
  Reset {
    /// The first byte.
    start: u32,
    /// The first byte behind.
    end: u32,
  },
  /// [`MagicString::insert`](crate::MagicString::insert).
  Insert {
    /// The position.
    at: u32,
    /// What is added there.
    text: &'a str,
    /// The side of the position.
    side: Side,
    /// The end of the list of texts there.
    end: End,
  },
  /// [`MagicString::relocate`](crate::MagicString::relocate).
  Relocate {
    /// The first byte.
    start: u32,
    /// The first byte behind.
    end: u32,
    /// Where the range goes.
    to: u32,
  },
}

impl<'a> Call<'a> {
  /// The list of these calls for [`MagicString::join`](crate::MagicString::join); none if a
  /// text is too long for a record's length. It may have more calls or bytes than a list
  /// that is joined.
  pub fn list(calls: &[Call]) -> Option<Vec<u8>> {
    let records: Option<Vec<_>> = calls.iter().map(|call| call.record().bytes()).collect();
    Some(records?.concat())
  }

  /// The record of the call.
  pub(super) fn record(&self) -> Record<'a> {
    let (kind, positions, text) = match *self {
      Call::Remove { start, end } => (Kind::Remove, vec![start, end], ""),
      Call::Update { start, end, text } => (Kind::Update, vec![start, end], text),
      Call::Reset { start, end } => (Kind::Reset, vec![start, end], ""),
      Call::Insert { at, text, side, end } => (insertion(side, end), vec![at], text),
      Call::Relocate { start, end, to } => (Kind::Relocate, vec![start, end, to], ""),
    };
    Record { kind, positions, text: text.as_bytes() }
  }

  /// The call of a record that was made of one.
  pub(super) fn of_record(Record { kind, positions, text }: Record<'a>) -> Self {
    let text = str::from_utf8(text).expect("a filed call's text is UTF-8");
    let insert = |at, side, end| Call::Insert { at, text, side, end };
    match (kind, &positions[..]) {
      (Kind::Remove, &[start, end]) => Call::Remove { start, end },
      (Kind::Update, &[start, end]) => Call::Update { start, end, text },
      (Kind::Reset, &[start, end]) => Call::Reset { start, end },
      (Kind::AppendLeft, &[at]) => insert(at, Left, Back),
      (Kind::AppendRight, &[at]) => insert(at, Right, Back),
      (Kind::PrependLeft, &[at]) => insert(at, Left, Front),
      (Kind::PrependRight, &[at]) => insert(at, Right, Front),
      (Kind::Relocate, &[start, end, to]) => Call::Relocate { start, end, to },
      _ => unreachable!("a record has the positions of its kind"),
    }
  }
}

/// The kind of an insertion with this setting.
fn insertion(side: Side, end: End) -> Kind {
  match (side, end) {
    (Left, Back) => Kind::AppendLeft,
    (Right, Back) => Kind::AppendRight,
    (Left, Front) => Kind::PrependLeft,
    (Right, Front) => Kind::PrependRight,
  }
}

impl fmt::Display for Call<'_> {
  fn fmt(&self, out: &mut fmt::Formatter) -> fmt::Result {
    out.pad(&self.record().to_string())
  }
}
