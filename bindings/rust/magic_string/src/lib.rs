//! A text and the edits made on it: string_wizard's `MagicString` over a core in
//! which every function is proved.
//!
//! ```
//! use magic_string::{End, MagicString, Refusal, Side};
//!
//! # fn main() -> Result<(), Refusal> {
//! let mut s = MagicString::new("Wind north, 12 knots")?;
//! s.update(5, 10, "west")?.insert(20, ", gusting", Side::Left, End::Back)?.prepend("CQ ")?;
//! assert_eq!(s.to_string(), "CQ Wind west, 12 knots, gusting");
//!
//! // A call that cannot be done says why, as a number and in words.
//! let refused = s.insert(7, "?", Side::Left, End::Back).unwrap_err();
//! assert_eq!(refused, Refusal::CutInReplacement);
//! assert_eq!(refused.number(), 6);
//! assert_eq!(refused.to_string(), "cut inside a non-empty replacement");
//!
//! // A cut that was made before a refusal stays, and is counted.
//! assert_eq!(s.remove(4, 7).err(), Some(Refusal::CutInReplacement));
//! assert_eq!(s.cuts(), 1);
//! # Ok(())
//! # }
//! ```
//!
//! Names and argument types are string_wizard's. What differs:
//!
//! - [`MagicString`] owns its source and three tables of fixed length, so it has no
//!   lifetime, and [limits](layout). [`MagicString::new`] and every edit may give
//!   [`Refusal::Limit`].
//! - Errors are a [`Refusal`], one of twenty-one, and not a `String`.
//! - Its `append_left`, `append_right`, `prepend_left` and `prepend_right` are one,
//!   [`MagicString::insert`], with a [`Side`] and an [`End`].
//! - A position inside a character is refused, where string_wizard may panic, and
//!   so is an update past the source.
//! - Trims take the two patterns that string_wizard names. Names and source maps,
//!   `filename`, `ignore_list`, `replace`, `snip` and the joiner are left out.
//! - Added: [`MagicString::line_count`], which counts lines as [`str::lines`] does; a
//!   way to look at the desk, chunk by chunk ([`MagicString::chunks`]); how many cuts
//!   the last edit made ([`MagicString::cuts`]); a whole paper in one call
//!   ([`MagicString::run_sheet`]); two lists of calls joined ([`MagicString::join`]), and
//!   in words why they cannot be ([`premises::broken`]); parts that no edit takes away
//!   ([`MagicString::freeze`]); and a record of calls, any of which can be taken back
//!   ([`Sitting`]), which a [`Member`] fills and an [`Examiner`] marks.
//!
//! Positions are byte offsets into the source.

mod chunk;
mod ffi;
mod filed;
mod magic_string;
mod memory;
pub mod premises;
mod refusal;
mod sitting;
mod span;

/// For callers who make or keep desks as memory ([`MagicString::from_tables`]), or make
/// sheets ([`MagicString::run_sheet`]).
#[doc(inline)]
pub use magic_string_sys::layout;

pub use crate::{
  chunk::{Chunk, Chunks},
  magic_string::{
    MagicString,
    indent::IndentOptions,
    insert::{End, Side},
    sheet::SheetRun,
    update::UpdateOptions,
  },
  refusal::Refusal,
  sitting::{Call, Entry, Examiner, FilingError, MarkedEntry, Member, Sitting},
  span::Span,
};
