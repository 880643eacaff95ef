//! Why two lists of calls do not join: the checks of the any-order rule
//! (docs/ANY-ORDER.md) one by one, on a desk and the calls of both lists together. For
//! setters and candidates who want to know which calls fail which check.
//!
//! ```
//! use magic_string::{Call, End, MagicString, Refusal, Side, premises::broken};
//!
//! let desk = MagicString::new("Wind north, 12 knots").unwrap();
//! let insert = Call::Insert { at: 10, text: "!", side: Side::Left, end: End::Back };
//! let first = Call::list(&[Call::Remove { start: 0, end: 5 }, insert]).unwrap();
//! let second = Call::list(&[Call::Update { start: 5, end: 10, text: "west" }]).unwrap();
//!
//! let broken = broken(&desk, &first, &second);
//! assert_eq!(
//!   broken.iter().map(|broken| broken.to_string()).collect::<Vec<_>>(),
//!   ["check 5: call 2 of the first list (append_left at 10) and call 1 of the second list \
//!     (update 5 to 10) reach the same byte, 9"]
//! );
//! assert_eq!(broken[0].refusal(), Refusal::NotApart);
//! ```

mod alone;
mod broken;
mod listed;
mod reach;
mod space;

pub use broken::Broken;
pub use listed::{ListName, Listed};
pub use reach::Spot;
/// A call of a list, its kind, and why bytes are no list.
#[doc(inline)]
pub use sheet_script::{Kind, Record, SheetError};
pub use space::Space;

use crate::MagicString;
use listed::read;
use reach::Reach;

/// What keeps the two lists from being joined on this desk, in the order of the checks. It
/// is empty if and only if [`MagicString::join`] is accepted, and that call's refusal is
/// else [that](Broken::refusal) of the first.
///
/// Each check is made on all calls: one call may be told of several times, and so may two.
/// If a list breaks the rules of its form, this alone is told.
pub fn broken<'a>(desk: &MagicString, first: &'a [u8], second: &'a [u8]) -> Vec<Broken<'a>> {
  let calls = match read(first, second) {
    Ok(calls) => calls,
    Err(no_lists) => return no_lists,
  };
  let source = u32::try_from(desk.source().len()).expect("a desk's source is short");
  let mut broken = Vec::new();
  if source == 0 {
    broken.push(Broken::EmptySource);
  }
  broken.extend(calls.iter().filter(|call| !is_wide(call)).cloned().map(Broken::Width));
  broken.extend(calls.iter().flat_map(|call| past_source(call, source)));
  broken.extend(pairs(&calls).filter_map(|[one, other]| same_reach(one, other, source)));
  broken.extend(pairs(&calls).filter_map(two_moves));
  broken.extend(calls.iter().flat_map(|one| calls.iter().flat_map(|other| inside(one, other))));
  broken.extend(calls.iter().filter_map(|call| alone::refused(desk, call)));
  broken.extend(space::missing(desk, &calls));
  broken
}

/// Every two calls, the earlier one first.
fn pairs<'c, 'a>(calls: &'c [Listed<'a>]) -> impl Iterator<Item = [&'c Listed<'a>; 2]> {
  let behind = |(place, one)| calls[place + 1..].iter().map(move |other| [one, other]);
  calls.iter().enumerate().flat_map(behind)
}

/// Whether the call, if it is a removal, replacement or reset, is of a byte or more.
fn is_wide(call: &Listed) -> bool {
  call.range().is_none_or(|(start, end)| start < end)
}

/// The positions that lie past the source's end.
fn past_source<'a>(call: &Listed<'a>, source: u32) -> Vec<Broken<'a>> {
  let past = call.record.positions.iter().filter(|&&position| position > source);
  past.map(|&position| Broken::PastSource { call: call.clone(), position, source }).collect()
}

/// What both calls reach.
fn same_reach<'a>(one: &Listed<'a>, other: &Listed<'a>, source: u32) -> Option<Broken<'a>> {
  let spot = Reach::of(one, source).shared(Reach::of(other, source))?;
  Some(Broken::SameReach { calls: [one.clone(), other.clone()], spot })
}

fn two_moves<'a>(calls: [&Listed<'a>; 2]) -> Option<Broken<'a>> {
  let both = calls.into_iter().all(Listed::is_move);
  both.then(|| Broken::TwoMoves(calls.map(Listed::clone)))
}

/// The positions of the one, if it is a move, that lie strictly inside the range of the
/// other, if that is a replacement.
fn inside<'a>(one: &Listed<'a>, other: &Listed<'a>) -> Vec<Broken<'a>> {
  let Some((start, end)) = other.replaced().filter(|_| one.is_move()) else { return Vec::new() };
  let inside = one.record.positions.iter().filter(|&&at| start < at && at < end);
  let broken =
    |&position| Broken::InsideReplaced { moved: one.clone(), position, replacement: other.clone() };
  inside.map(broken).collect()
}
