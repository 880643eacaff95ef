//! Document 02's L8 around the Rust, which knows no marks: they are kept beside its desk.

use desk_data::DeskData;
use string_wizard::MagicString;

use crate::{Call, number};

/// A mark for each byte of the source: a chunk has that of its first byte, and a cut gives
/// it to both halves. An empty source has one mark, that of its chunk 0 to 0.
#[derive(Debug, Clone, PartialEq, Eq)]
pub struct Marks(Vec<bool>);

impl Marks {
  /// "Each chunk gains a mark, clear on opening."
  pub fn clear(source: &str) -> Self {
    Self(vec![false; source.len().max(1)])
  }

  /// Those of the chunks.
  pub fn of(desk: &DeskData) -> Self {
    let mut marks = Self::clear(&desk.source);
    for chunk in desk.chunks.iter().filter(|chunk| chunk.frozen) {
      marks.set(chunk.start, chunk.end.max(1));
    }
    marks
  }

  fn set(&mut self, start: u32, end: u32) {
    self.0[start as usize..end as usize].fill(true);
  }

  /// The mark of the chunk that starts here.
  pub fn at(&self, start: u32) -> bool {
    self.0[start as usize]
  }

  pub fn any(&self) -> bool {
    self.0.contains(&true)
  }

  /// Whether a marked chunk starts in the range, once it is cut at both ends.
  pub fn any_in(&self, start: u32, end: u32) -> bool {
    self.0.iter().take(end as usize).skip(start as usize).any(|&marked| marked)
  }
}

/// "Trim and indent refuse any desk with one."
pub fn is_of_whole_desk(call: &Call) -> bool {
  use Call::*;
  matches!(call, Trim { .. } | TrimStart { .. } | TrimEnd { .. } | TrimLines | IndentWith { .. })
}

/// "Removal, replacement and reset refuse a range with a marked chunk": the desk that 20
/// leaves, "after the cuts and, in update_with, after 10; cuts made stay". None where the
/// call is not refused so, or another number comes first.
pub fn refused<'s>(desk: &MagicString<'s>, marks: &Marks, call: &Call) -> Option<MagicString<'s>> {
  let (start, end) = match *call {
    Call::Remove { start, end } => (start, end),
    // 10 comes first.
    Call::Reset { end, .. } | Call::UpdateWith { end, .. }
      if end as usize > desk.source().len() =>
    {
      return None;
    }
    Call::Reset { start, end } | Call::UpdateWith { start, end, .. } => (start, end),
    _ => return None,
  };
  // Zero width and 4 have no chunk in their range; a refused cut comes first.
  let mut left = desk.clone();
  let is_cut = |left: &mut MagicString| left.cut(start).and_then(|()| left.cut(end)).is_ok();
  (marks.any_in(start, end) && is_cut(&mut left)).then_some(left)
}

/// "Freezing a range follows reset's rules and order up to its cuts, then sets the mark on
/// its chunks."
pub fn freeze(desk: &mut MagicString, marks: &mut Marks, start: u32, end: u32) -> Result<(), u32> {
  let mut reset = desk.clone();
  let done = reset.reset(start, end).map(|_| ()).map_err(number::of_message);
  if done.is_err() {
    // The cuts made before a refused one stay.
    *desk = reset;
  } else if start != end {
    desk.cut(start).and_then(|()| desk.cut(end)).expect("reset cuts there too");
    marks.set(start, end);
  }
  done
}
