//! The numbers of refusals by name, as include/magic_string.h has them.

/// Declares the numbers, and all of them as one list.
macro_rules! numbers {
  ($($(#[$of_number:meta])* $name:ident = $number:literal;)*) => {
    $($(#[$of_number])* pub const $name: u32 = $number;)*

    /// All of them with their names, in order.
    pub const NUMBERS: &[(&str, u32)] = &[$((stringify!($name), $name)),*];
  };
}

numbers! {
  /// A text is not UTF-8.
  NOT_UTF8 = 1;
  /// The memory holds no well-formed desk, or no well-formed record.
  NOT_WELL_FORMED = 2;
  /// A position lies inside a character.
  INSIDE_CHARACTER = 3;
  /// The end lies before the start.
  END_BEFORE_START = 4;
  /// A replacement of zero width.
  ZERO_WIDTH = 5;
  /// A cut inside a non-empty replacement.
  CUT_IN_REPLACEMENT = 6;
  /// A replacement across a moved edge.
  ACROSS_MOVED_EDGE = 7;
  /// A move into itself.
  INTO_ITSELF = 8;
  /// A moved range that is not together.
  NOT_TOGETHER = 9;
  /// An end past the source.
  PAST_SOURCE = 10;
  /// A slice that starts inside a replaced chunk.
  SLICE_START = 11;
  /// A slice that ends inside a replaced chunk.
  SLICE_END = 12;
  /// The desk, or the record, would break a limit; or there is no space for calls to be
  /// joined.
  LIMIT = 13;
  /// The output buffer is too short.
  SHORT_BUFFER = 14;
  /// A pattern above 1, or an exclude list of odd count.
  BAD_OPTION = 15;
  /// A sheet, a list to be joined, or a call to be filed, that breaks the rules of its
  /// form.
  BAD_SHEET = 16;
  /// No call with that number is filed.
  NO_SUCH_CALL = 17;
  /// Calls to be joined are not apart: a reach, a position, a width, a second move or an
  /// empty source.
  NOT_APART = 18;
  /// A call to be joined is refused when it is made alone.
  REFUSED_ALONE = 19;
  /// A frozen chunk in the range, or on a desk to be trimmed or indented; or freezing while
  /// calls are filed.
  FROZEN = 20;
  /// Marks above [`HIGHEST_MARKS`](crate::layout::HIGHEST_MARKS).
  MARKS_TOO_HIGH = 21;
}
