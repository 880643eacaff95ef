//! Document 01's numbers and those that document 02 adds, and which message of the Rust is
//! which.

pub const ACCEPTED: u32 = 0;
pub const NOT_UTF8: u32 = 1;
/// Memory that is not a desk, or not a record: no answer of the Rust's.
pub const NOT_WELL_FORMED: u32 = 2;
pub const INSIDE_CHARACTER: u32 = 3;
pub const END_BEFORE_START: u32 = 4;
pub const ZERO_WIDTH: u32 = 5;
pub const CUT_IN_REPLACEMENT: u32 = 6;
pub const ACROSS_MOVED_EDGE: u32 = 7;
pub const INTO_ITSELF: u32 = 8;
pub const NOT_TOGETHER: u32 = 9;
pub const PAST_SOURCE: u32 = 10;
pub const SLICE_START: u32 = 11;
pub const SLICE_END: u32 = 12;
pub const LIMIT: u32 = 13;
pub const SHORT_BUFFER: u32 = 14;
pub const BAD_OPTION: u32 = 15;
/// A sheet, a list to be joined, or a call to be filed, that breaks its rules: no answer of
/// the Rust's.
pub const BAD_SHEET: u32 = 16;
/// No call with that number is filed: no answer of the Rust's.
pub const NO_SUCH_CALL: u32 = 17;
/// Calls to be joined are not apart: no answer of the Rust's.
pub const NOT_APART: u32 = 18;
/// A call to be joined is refused alone: no answer of the Rust's.
pub const REFUSED_ALONE: u32 = 19;
/// A frozen chunk in the range, or on the desk; or freezing with calls filed: no answer of
/// the Rust's.
pub const FROZEN: u32 = 20;
/// Marks above the highest: no answer of the Rust's.
pub const MARKS_TOO_HIGH: u32 = 21;

/// Each message by a part that no other has.
const MESSAGES: [(&str, u32); 10] = [
  ("end must be greater than start", END_BEFORE_START),
  ("Cannot overwrite a zero-length range", ZERO_WIDTH),
  ("Cannot split a chunk that has already been edited", CUT_IN_REPLACEMENT),
  ("Cannot overwrite across a split point", ACROSS_MOVED_EDGE),
  ("Cannot move a selection inside itself", INTO_ITSELF),
  ("an earlier move left it non-contiguous", NOT_TOGETHER),
  ("it is out of bounds (source length is", PAST_SOURCE),
  ("Character is out of bounds", PAST_SOURCE),
  ("as slice start anchor", SLICE_START),
  ("as slice end anchor", SLICE_END),
];

/// The number of an error of the Rust.
pub fn of_message(message: String) -> u32 {
  let found = MESSAGES.iter().find(|(part, _)| message.contains(part));
  found.unwrap_or_else(|| panic!("a message without a number: {message}")).1
}
