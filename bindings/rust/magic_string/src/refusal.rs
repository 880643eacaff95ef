use std::{error::Error, fmt};

use magic_string_sys::numbers;

/// Why a call was not done: document 01's numbers, and those that document 02 adds.
///
/// 6, 7, 9, an update's 10 and the 20 of a removal, replacement or reset leave the cuts that
/// were made ([`MagicString::cuts`](crate::MagicString::cuts) counts them), and 7 the chunks
/// that were cleared before it; every other refusal changes nothing.
#[derive(Debug, Clone, Copy, PartialEq, Eq, Hash, PartialOrd, Ord)]
#[repr(u32)]
pub enum Refusal {
  /// Text not UTF-8.
  NotUtf8 = numbers::NOT_UTF8,
  /// Desk not well formed.
  NotWellFormed = numbers::NOT_WELL_FORMED,
  /// Position inside a character.
  InsideCharacter = numbers::INSIDE_CHARACTER,
  /// End before start.
  EndBeforeStart = numbers::END_BEFORE_START,
  /// Replace zero width.
  ZeroWidth = numbers::ZERO_WIDTH,
  /// Cut inside a non-empty replacement.
  CutInReplacement = numbers::CUT_IN_REPLACEMENT,
  /// Replace across a moved edge.
  AcrossMovedEdge = numbers::ACROSS_MOVED_EDGE,
  /// Move into itself: start ≤ `to` ≤ end.
  IntoItself = numbers::INTO_ITSELF,
  /// Moved range not together.
  NotTogether = numbers::NOT_TOGETHER,
  /// End past source (update, reset, relocate).
  PastSource = numbers::PAST_SOURCE,
  /// Slice starts inside a replaced chunk.
  SliceStart = numbers::SLICE_START,
  /// Slice ends inside a replaced chunk.
  SliceEnd = numbers::SLICE_END,
  /// The desk that the call would leave breaks a [limit](crate::layout), or there is no
  /// space for calls to be joined.
  Limit = numbers::LIMIT,
  /// Output buffer too short.
  ShortBuffer = numbers::SHORT_BUFFER,
  /// Pattern above 1, or an exclude list of odd count.
  BadOption = numbers::BAD_OPTION,
  /// A sheet, a list to be joined, or a call to be filed, that breaks the rules of its
  /// form.
  BadSheet = numbers::BAD_SHEET,
  /// No call with that number is filed.
  NoSuchCall = numbers::NO_SUCH_CALL,
  /// Calls to be joined are not apart.
  NotApart = numbers::NOT_APART,
  /// A call to be joined is refused alone.
  RefusedAlone = numbers::REFUSED_ALONE,
  /// A [frozen](crate::MagicString::freeze) chunk in the range, or on a desk to be trimmed
  /// or indented; or freezing while calls are filed.
  Frozen = numbers::FROZEN,
  /// Marks above 100.
  MarksTooHigh = numbers::MARKS_TOO_HIGH,
}

impl Refusal {
  /// All of them, in the order of their numbers.
  pub const ALL: [Refusal; 21] = [
    Refusal::NotUtf8,
    Refusal::NotWellFormed,
    Refusal::InsideCharacter,
    Refusal::EndBeforeStart,
    Refusal::ZeroWidth,
    Refusal::CutInReplacement,
    Refusal::AcrossMovedEdge,
    Refusal::IntoItself,
    Refusal::NotTogether,
    Refusal::PastSource,
    Refusal::SliceStart,
    Refusal::SliceEnd,
    Refusal::Limit,
    Refusal::ShortBuffer,
    Refusal::BadOption,
    Refusal::BadSheet,
    Refusal::NoSuchCall,
    Refusal::NotApart,
    Refusal::RefusedAlone,
    Refusal::Frozen,
    Refusal::MarksTooHigh,
  ];

  /// Its number, 1 to 21.
  pub fn number(self) -> u32 {
    self as u32
  }

  /// The refusal with this number.
  pub fn from_number(number: u32) -> Option<Self> {
    Self::ALL.into_iter().find(|refusal| refusal.number() == number)
  }

  /// What a call answered with this number, which is 0 or a refusal's.
  pub(crate) fn answer(number: u32) -> Result<(), Self> {
    match number {
      0 => Ok(()),
      number => Err(Self::from_number(number).expect("a refusal's number")),
    }
  }
}

/// The documents' words.
impl fmt::Display for Refusal {
  fn fmt(&self, out: &mut fmt::Formatter) -> fmt::Result {
    out.pad(match self {
      Refusal::NotUtf8 => "text not UTF-8",
      Refusal::NotWellFormed => "desk not well formed",
      Refusal::InsideCharacter => "position inside a character",
      Refusal::EndBeforeStart => "end before start",
      Refusal::ZeroWidth => "replace zero width",
      Refusal::CutInReplacement => "cut inside a non-empty replacement",
      Refusal::AcrossMovedEdge => "replace across a moved edge",
      Refusal::IntoItself => "move into itself: start ≤ to ≤ end",
      Refusal::NotTogether => "moved range not together",
      Refusal::PastSource => "end past source",
      Refusal::SliceStart => "slice starts inside a replaced chunk",
      Refusal::SliceEnd => "slice ends inside a replaced chunk",
      Refusal::Limit => "the desk would break a limit",
      Refusal::ShortBuffer => "output buffer too short",
      Refusal::BadOption => "pattern above 1, or an exclude list of odd count",
      Refusal::BadSheet => "sheet, list or call breaks the rules of its form",
      Refusal::NoSuchCall => "no call with that number is filed",
      Refusal::NotApart => "calls to be joined are not apart",
      Refusal::RefusedAlone => "a call to be joined is refused alone",
      Refusal::Frozen => "a frozen chunk, or freezing with calls already filed",
      Refusal::MarksTooHigh => "marks above 100",
    })
  }
}

impl Error for Refusal {}
