//! A second reading of frozen parts, with a mark on each chunk, by rules that can be changed
//! one by one: what a core answers that edits, freezes, files and withdraws by it.

mod desks;

pub use desks::{bare, reaches};
use desks::{cut, holds};
use differential::{
  Answer, Lent, LentRecord, Sizes, keeps,
  layout::{MARK, ROW, START},
};
use oracle::{Call, ChunkData, Desk, DeskData, Limits, apply, number::*};

use crate::{
  sheet_rules::{Reading, desk, put_data},
  sitting_rules,
};

/// What a freezing is tested for.
#[derive(Debug, Clone, Copy, PartialEq, Eq)]
pub enum Ground {
  Filed,
  Inside,
  Nothing,
  Turned,
  Past,
  Cut,
}

/// What a call gives, and the desk that it leaves.
#[derive(Debug, Clone)]
pub struct Made {
  pub number: u32,
  pub left: DeskData,
}

#[derive(Clone)]
pub struct Rules {
  /// Filing and withdrawing, and the record that a freezing looks at.
  pub record: sitting_rules::Rules,
  pub beside: sitting_rules::Rules,
  /// Whether this word of a row is a mark that is set.
  pub mark: fn(u32) -> bool,
  /// Whether a desk has the mark in all chunks, by its words.
  pub also_marked: fn(&Lent) -> bool,
  /// The marks of the halves of a chunk with this mark.
  pub halves: fn(bool) -> [bool; 2],
  /// What else becomes of the marks.
  pub behind: fn(&Call, &mut DeskData),
  /// Whether an opening sets the mark.
  pub opened: fn(&Lent) -> bool,
  /// Whether a call of a range is refused for the chunk.
  pub reaches: fn(&Call, &ChunkData, [u32; 2]) -> bool,
  /// The numbers that come before 20.
  pub before: fn(&Call) -> Vec<u32>,
  /// Where it is cut before 20.
  pub cuts: fn([u32; 2]) -> Vec<u32>,
  /// Whether a call of the whole desk is refused on this one.
  pub whole: fn(&Call, &DeskData) -> bool,
  /// Whether the empty indentor, and 13, come before it.
  pub nothing_first: bool,
  pub limit_first: bool,
  /// What 20 leaves, of the desk before and the one with the cuts.
  pub refused: fn(&DeskData, DeskData) -> DeskData,
  /// The desk on which 13 is judged: of what is left, and what the Rust would leave.
  pub judged: for<'a> fn(&'a Made, &'a Made, &'a DeskData) -> &'a DeskData,
  pub value: fn(u32, u32) -> u32,
  /// In the order in which it is tested.
  pub freeze_order: [Ground; 6],
  pub filed: fn(usize) -> bool,
  /// Whether a frozen range is refused.
  pub again: fn(&DeskData, [u32; 2]) -> bool,
  /// The mark of a chunk once the range is frozen.
  pub sets: fn(&ChunkData, [u32; 2]) -> bool,
  /// Whether a freezing is laid out anew where nothing changes.
  pub lays_out: bool,
}

impl Rules {
  pub fn right() -> Self {
    use Ground::*;
    Self {
      record: sitting_rules::Rules::right(),
      beside: sitting_rules::Rules::right(),
      mark: |word| word != 0,
      also_marked: |_| false,
      halves: |mark| [mark, mark],
      behind: |_, _| (),
      opened: |_| false,
      reaches: |call, chunk, range| is_guarded(call) && chunk.frozen && reaches(chunk, range),
      before,
      cuts: |[start, end]| vec![start, end],
      whole: |_, desk| desk.chunks.iter().any(|chunk| chunk.frozen),
      nothing_first: false,
      limit_first: false,
      refused: |_, cut| cut,
      judged: |made, _, _| &made.left,
      value: |_, growth| growth,
      freeze_order: [Filed, Inside, Nothing, Turned, Past, Cut],
      filed: |count| count > 0,
      again: |_, _| false,
      sets: |chunk, range| chunk.frozen || reaches(chunk, range),
      lays_out: false,
    }
  }

  /// The desk in this memory, by its marks; none where it is not well formed.
  fn desk(&self, lent: &Lent) -> Option<DeskData> {
    let mut data = desk(lent)?.data();
    let rows = lent.chunks.chunks(ROW);
    let marks: Vec<(u32, u32)> = rows.skip(1).map(|row| (row[START], row[MARK])).collect();
    let also = (self.also_marked)(lent);
    for chunk in &mut data.chunks {
      let row = marks.iter().find(|(start, _)| *start == chunk.start);
      chunk.frozen = also || row.is_some_and(|&(_, word)| (self.mark)(word));
    }
    Some(data)
  }

  /// An edit, on a desk without limits.
  fn made(&self, desk: &DeskData, call: &Call) -> [Made; 2] {
    let mut rust = Desk::build(Limits::NONE, &bare(desk));
    let number = apply(&mut rust, call).number;
    let rust = Made { number, left: rust.data() };
    [self.refused(desk, call, &rust).unwrap_or_else(|| rust.clone()), rust]
  }

  /// A call that is refused with 20, or with 6 before it.
  fn refused(&self, desk: &DeskData, call: &Call, rust: &Made) -> Option<Made> {
    let earlier = (self.before)(call);
    if rust.number != CUT_IN_REPLACEMENT && earlier.contains(&rust.number) {
      return None;
    }
    if oracle::frozen::is_of_whole_desk(call) {
      let is_first = self.nothing_first && keeps::every_byte(call, ACCEPTED)
        || self.limit_first && !holds(&rust.left);
      let is_refused = (self.whole)(call, desk) && !is_first;
      return is_refused.then(|| Made { number: FROZEN, left: bare(desk) });
    }
    let range: [u32; 2] = match call {
      Call::Freeze { .. } => return None,
      _ => call.positions().try_into().ok().or_else(|| at(call))?,
    };
    if !desk.chunks.iter().any(|chunk| (self.reaches)(call, chunk, range)) {
      return None;
    }
    let mut left = bare(desk);
    for at in (self.cuts)(range) {
      if !cut(&mut left, at) && earlier.contains(&CUT_IN_REPLACEMENT) {
        return Some(Made { number: CUT_IN_REPLACEMENT, left });
      }
    }
    Some(Made { number: FROZEN, left: (self.refused)(&bare(desk), left) })
  }

  /// A freezing, with so many calls filed.
  fn frozen(&self, desk: &DeskData, [start, end]: [u32; 2], filed: usize) -> Made {
    let source = &desk.source;
    let inside = |at: u32| at as usize <= source.len() && !source.is_char_boundary(at as usize);
    let mut left = bare(desk);
    for ground in self.freeze_order {
      let number = match ground {
        Ground::Filed => (self.filed)(filed).then_some(FROZEN),
        Ground::Inside => (inside(start) || inside(end)).then_some(INSIDE_CHARACTER),
        Ground::Nothing => (start == end).then_some(ACCEPTED),
        Ground::Turned => (end < start).then_some(END_BEFORE_START),
        Ground::Past => (end as usize > source.len()).then_some(PAST_SOURCE),
        Ground::Cut => {
          (!cut(&mut left, start) || !cut(&mut left, end)).then_some(CUT_IN_REPLACEMENT)
        }
      };
      if let Some(number) = number {
        return Made { number, left };
      }
    }
    let number = if (self.again)(desk, [start, end]) { FROZEN } else { ACCEPTED };
    Made { number, left }
  }

  /// The marks of the chunks that are left, by those that were there.
  fn carry(&self, before: &DeskData, call: &Call, left: &mut DeskData) {
    for chunk in &mut left.chunks {
      let mut old = before.chunks.iter();
      let old = old.find(|old| old.start <= chunk.start && chunk.end <= old.end);
      let old = old.expect("a part of a chunk");
      let [first, second] = (self.halves)(old.frozen);
      chunk.frozen = match [chunk.start == old.start, chunk.end == old.end] {
        [true, true] => old.frozen,
        [true, false] => first,
        _ => second,
      };
    }
    (self.behind)(call, left);
  }

  /// An opening, if it sets the mark.
  fn open(&self, lent: &mut Lent) -> Option<Answer> {
    let takes = lent.sizes() == Some(Sizes::FULL) && (self.opened)(lent);
    let desk = takes.then(|| Desk::open(Limits::FULL, lent.source).ok()).flatten()?;
    let mut fresh = desk.data();
    fresh.chunks[0].frozen = true;
    put_data(&fresh, lent);
    Some(Answer::ACCEPTED)
  }

  /// Makes an edit, a freezing beside so many filed calls.
  fn edit(&self, lent: &mut Lent, desk: &DeskData, call: &Call, filed: usize) -> Answer {
    let [mut made, rust] = match *call {
      Call::Freeze { start, end } => {
        let made = self.frozen(desk, [start, end], filed);
        [made.clone(), made]
      }
      _ => self.made(desk, call),
    };
    let is_early = [BAD_OPTION, NOT_UTF8, INSIDE_CHARACTER].contains(&made.number);
    if !is_early && !holds((self.judged)(&made, &rust, desk)) {
      return Answer { number: LIMIT, value: 0 };
    }
    self.carry(desk, call, &mut made.left);
    if let (&Call::Freeze { start, end }, ACCEPTED) = (call, made.number) {
      made.left.chunks.iter_mut().for_each(|chunk| {
        chunk.frozen = (self.sets)(chunk, [start, end]);
      });
    }
    let growth = (made.left.chunks.len() - desk.chunks.len()) as u32;
    // Where 13 is missed there is no room for the desk.
    let is_laid_out = self.lays_out || !keeps::every_byte(call, made.number) || growth > 0;
    if is_laid_out && holds(&made.left) {
      put_data(&made.left, lent);
    }
    Answer { number: made.number, value: (self.value)(made.number, growth) }
  }
}

/// The numbers that come before 20 by the documents.
pub fn before(call: &Call) -> Vec<u32> {
  let own: &[u32] = match call {
    Call::Remove { .. } => &[END_BEFORE_START, CUT_IN_REPLACEMENT],
    Call::Reset { .. } => &[END_BEFORE_START, PAST_SOURCE, CUT_IN_REPLACEMENT],
    Call::UpdateWith { .. } => &[ZERO_WIDTH, END_BEFORE_START, CUT_IN_REPLACEMENT, PAST_SOURCE],
    _ => &[],
  };
  [&[BAD_OPTION, NOT_UTF8, INSIDE_CHARACTER], own].concat()
}

/// "Removal, replacement and reset".
pub fn is_guarded(call: &Call) -> bool {
  matches!(call, Call::Remove { .. } | Call::UpdateWith { .. } | Call::Reset { .. })
}

/// The range of an insertion or a move, which are free.
fn at(call: &Call) -> Option<[u32; 2]> {
  match *call {
    Call::Insert { at, .. } => Some([at, at]),
    Call::Relocate { start, end, .. } => Some([start, end]),
    _ => None,
  }
}

impl Reading for Rules {
  /// Edits on a desk, and openings that set the mark.
  fn call(&mut self, lent: &mut Lent, call: &Call) -> Option<Answer> {
    match call {
      Call::Open { .. } => self.open(lent),
      _ if call.is_edit() => {
        let desk = self.desk(lent)?;
        Some(self.edit(lent, &desk, call, 0))
      }
      _ => None,
    }
  }

  fn freeze(&mut self, lent: &mut Lent, record: &LentRecord, range: [u32; 2]) -> Option<Answer> {
    let (desk, held) = (self.desk(lent), self.beside.held(lent.source, record));
    let (Some(desk), Some(held)) = (desk, held) else { return Some(Answer::NO_DESK) };
    let [start, end] = range;
    Some(self.edit(lent, &desk, &Call::Freeze { start, end }, held.calls.len()))
  }

  fn file(&mut self, lent: &mut Lent, record: &mut LentRecord, call: &[u8]) -> Option<Answer> {
    Reading::file(&mut self.record, lent, record, call)
  }

  fn withdraw(&mut self, lent: &mut Lent, record: &mut LentRecord, k: u32) -> Option<Answer> {
    Reading::withdraw(&mut self.record, lent, record, k)
  }
}
