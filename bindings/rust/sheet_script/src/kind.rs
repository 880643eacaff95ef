/// The kinds of records, each a call.
#[derive(Debug, Clone, Copy, PartialEq, Eq)]
#[repr(u8)]
pub enum Kind {
  /// Removes a range.
  Remove = 1,
  /// Replaces a range, with overwrite.
  Update,
  /// Undoes the edits of a range.
  Reset,
  /// Inserts on the left side of a position, behind the others there.
  AppendLeft,
  /// Inserts on the right side, behind the others.
  AppendRight,
  /// Inserts on the left side, before the others.
  PrependLeft,
  /// Inserts on the right side, before the others.
  PrependRight,
  /// Moves a range to a position.
  Relocate,
}

impl Kind {
  /// All of them, in the order of their bytes.
  pub const ALL: [Kind; 8] = [
    Kind::Remove,
    Kind::Update,
    Kind::Reset,
    Kind::AppendLeft,
    Kind::AppendRight,
    Kind::PrependLeft,
    Kind::PrependRight,
    Kind::Relocate,
  ];

  /// The kind with this byte.
  pub fn of_byte(byte: u8) -> Option<Kind> {
    Self::ALL.into_iter().find(|kind| kind.byte() == byte)
  }

  /// The kind that a script calls so.
  pub fn of_name(name: &str) -> Option<Kind> {
    Self::ALL.into_iter().find(|kind| kind.name() == name)
  }

  /// The byte that says the kind, 1 to 8.
  pub fn byte(self) -> u8 {
    self as u8
  }

  /// The call's name in a script.
  pub fn name(self) -> &'static str {
    match self {
      Kind::Remove => "remove",
      Kind::Update => "update",
      Kind::Reset => "reset",
      Kind::AppendLeft => "append_left",
      Kind::AppendRight => "append_right",
      Kind::PrependLeft => "prepend_left",
      Kind::PrependRight => "prepend_right",
      Kind::Relocate => "relocate",
    }
  }

  /// How many positions the call takes.
  pub fn positions(self) -> usize {
    match self {
      Kind::AppendLeft | Kind::AppendRight | Kind::PrependLeft | Kind::PrependRight => 1,
      Kind::Remove | Kind::Update | Kind::Reset => 2,
      Kind::Relocate => 3,
    }
  }

  /// Whether the call takes a text.
  pub fn has_text(self) -> bool {
    !matches!(self, Kind::Remove | Kind::Reset | Kind::Relocate)
  }

  /// The length that a record of this kind has without its text.
  pub(crate) fn length(self) -> usize {
    1 + 4 * self.positions()
  }
}
