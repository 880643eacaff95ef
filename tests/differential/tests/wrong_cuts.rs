//! Cores that count the cuts of an edit otherwise (document 02, L4) are caught by the
//! random papers, in which every number that leaves cuts comes with some.

use std::{collections::BTreeSet, time::Duration};

use differential::{
  Answer, Core, Lent, Unseen,
  compare::{Compared, compare},
  cores::StandIn,
  image, keeps,
  tally::MANY,
};
use oracle::{
  Call, Cut, Desk, DeskData, Limits, apply,
  cuts::{cuts, made},
  number::*,
};

/// An edit that was made, with the right answer.
struct Edit<'a> {
  call: &'a Call,
  before: DeskData,
  after: DeskData,
  answer: Answer,
}

impl Edit<'_> {
  /// What its cuts did, if it came to them.
  fn cuts(&self) -> Vec<Cut> {
    let kept = keeps::every_byte(self.call, self.answer.number);
    if kept { Vec::new() } else { cuts(&self.before, self.call) }
  }

  /// How many did one of these.
  fn count(&self, of: &[Cut]) -> u32 {
    self.cuts().iter().filter(|cut| of.contains(cut)).count() as u32
  }

  fn right(&self) -> u32 {
    self.answer.value
  }

  /// The right number, but where this holds.
  fn right_unless(&self, wrong: bool, count: u32) -> u32 {
    if wrong { count } else { self.right() }
  }

  /// None if such a call has this number.
  fn forgotten(&self, call: Kind, number: u32) -> u32 {
    self.right_unless(call(self.call) && self.answer.number == number, 0)
  }

  /// Those that the 13 of such a call takes back.
  fn not_taken_back(&self, call: Kind) -> u32 {
    let mut desk = Desk::build(Limits::NONE, &self.before);
    let wrong = call(self.call) && self.answer.number == LIMIT;
    self.right_unless(wrong, apply(&mut desk, self.call).value)
  }
}

/// Some of the edits.
type Kind = fn(&Call) -> bool;

/// How many cuts a core says that an edit made.
type Count = fn(&Edit) -> u32;

#[derive(Clone)]
struct Counter {
  right: StandIn,
  count: Count,
}

impl Core for Counter {
  fn name(&self) -> &'static str {
    "counter"
  }

  fn call(&mut self, lent: &mut Lent, call: &Call, unseen: &Unseen, out: &mut [u8]) -> Answer {
    let is_desk = self.well_formed(lent) == Answer::ACCEPTED;
    if !is_desk || !call.is_edit() || matches!(call, Call::Open { .. }) {
      return self.right.call(lent, call, unseen, out);
    }
    let before = desk(lent);
    let answer = self.right.call(lent, call, unseen, out);
    let value = (self.count)(&Edit { call, before, after: desk(lent), answer });
    Answer { value, ..answer }
  }

  fn well_formed(&mut self, lent: &Lent) -> Answer {
    self.right.well_formed(lent)
  }
}

fn desk(lent: &Lent) -> DeskData {
  image::decode(lent.source, lent.chunks, lent.pieces, lent.store)
}

/// The places where chunks end.
fn ends(desk: &DeskData) -> BTreeSet<u32> {
  desk.chunks.iter().map(|chunk| chunk.end).collect()
}

/// A wrong count, and the edits on which it is one.
type Wrong = (&'static str, Kind, Count);

const WRONG: [Wrong; 28] = [
  ("no edit reports", Call::is_edit, |_| 0),
  ("an edge counts", Call::is_edit, |edit| edit.count(&[Cut::Made, Cut::Edge])),
  ("a cut outside counts", Call::is_edit, |edit| edit.count(&[Cut::Made, Cut::Outside])),
  ("a refused cut counts", Call::is_edit, |edit| edit.count(&[Cut::Made, Cut::Refused])),
  ("a refusal has none", Call::is_edit, |edit| edit.right_unless(edit.answer.number != 0, 0)),
  ("a removal's 6 forgets the first cut", is_removal, |edit| {
    edit.forgotten(is_removal, CUT_IN_REPLACEMENT)
  }),
  ("an update's 6 forgets it", is_update, |edit| edit.forgotten(is_update, CUT_IN_REPLACEMENT)),
  ("a reset's 6 forgets it", is_reset, |edit| edit.forgotten(is_reset, CUT_IN_REPLACEMENT)),
  ("a move's 6 forgets its cuts", is_move, |edit| edit.forgotten(is_move, CUT_IN_REPLACEMENT)),
  ("7 forgets its cuts", is_update, |edit| edit.forgotten(is_update, ACROSS_MOVED_EDGE)),
  ("9 forgets its cuts", is_move, |edit| edit.forgotten(is_move, NOT_TOGETHER)),
  ("an update's 10 forgets its cut", is_update, |edit| edit.forgotten(is_update, PAST_SOURCE)),
  ("13 takes an insertion's cut not back", is_insertion, |edit| edit.not_taken_back(is_insertion)),
  ("13 takes those of a range not back", is_of_range, |edit| edit.not_taken_back(is_of_range)),
  ("13 takes those of a move not back", is_move, |edit| edit.not_taken_back(is_move)),
  ("13 takes those of an indent not back", is_indent, |edit| edit.not_taken_back(is_indent)),
  ("a move counts two of three", is_move, |edit| {
    edit.right_unless(is_move(edit.call), edit.right().min(2))
  }),
  ("a move forgets the cut where it goes", is_move, |edit| {
    let cuts = edit.cuts();
    let first = cuts.iter().take(2).filter(|&&cut| cut == Cut::Made).count();
    edit.right_unless(is_move(edit.call), first as u32)
  }),
  ("a range counts one of two", is_of_range, |edit| {
    edit.right_unless(is_of_range(edit.call), edit.right().min(1))
  }),
  ("an accepted insertion always cuts", is_insertion, |edit| {
    edit.right_unless(is_insertion(edit.call) && edit.answer.number == 0, 1)
  }),
  ("an edit of no width cuts", Call::is_edit, |edit| {
    let kept = edit.answer.number == 0 && keeps::every_byte(edit.call, 0) && !is_indent(edit.call);
    edit.right_unless(kept, made(&edit.before, edit.call) as u32)
  }),
  ("a cut of a removed chunk does not count", Call::is_edit, |edit| {
    let old = ends(&edit.before);
    let removed = |&at: &u32| {
      let mut chunks = edit.before.chunks.iter();
      let held = chunks.find(|chunk| chunk.start < at && at < chunk.end);
      held.is_some_and(|chunk| chunk.edited_content.is_some())
    };
    let removed = ends(&edit.after).into_iter().filter(|end| !old.contains(end)).filter(removed);
    edit.right() - removed.count() as u32
  }),
  ("an indent counts line starts at an edge", is_indent, |edit| {
    edit.right_unless(is_indent(edit.call), edit.count(&[Cut::Made, Cut::Edge]))
  }),
  ("an indent counts one at the source's start", is_indent, |edit| {
    edit.right_unless(is_indent(edit.call), edit.count(&[Cut::Made, Cut::Outside]))
  }),
  ("an indent has none", is_indent, |edit| edit.right_unless(is_indent(edit.call), 0)),
  ("a trim counts a chunk that it trims in part", is_trim, |edit| {
    let replaced = |desk: &DeskData| {
      desk.chunks.iter().filter(|chunk| chunk.edited_content.is_some()).count() as u32
    };
    edit.right_unless(is_trim(edit.call), replaced(&edit.after) - replaced(&edit.before))
  }),
  ("a text at an end of the output counts", is_at_end, |edit| {
    edit.right_unless(is_at_end(edit.call) && edit.answer.number == 0, 1)
  }),
  ("the chunks of the desk are reported", Call::is_edit, |edit| edit.after.chunks.len() as u32),
];

fn is_update(call: &Call) -> bool {
  matches!(call, Call::UpdateWith { .. })
}

fn is_removal(call: &Call) -> bool {
  matches!(call, Call::Remove { .. })
}

fn is_reset(call: &Call) -> bool {
  matches!(call, Call::Reset { .. })
}

fn is_of_range(call: &Call) -> bool {
  is_removal(call) || is_update(call) || is_reset(call)
}

fn is_move(call: &Call) -> bool {
  matches!(call, Call::Relocate { .. })
}

fn is_insertion(call: &Call) -> bool {
  matches!(call, Call::Insert { .. })
}

fn is_indent(call: &Call) -> bool {
  matches!(call, Call::IndentWith { .. })
}

fn is_trim(call: &Call) -> bool {
  let both = matches!(call, Call::Trim { .. } | Call::TrimLines);
  both || matches!(call, Call::TrimStart { .. } | Call::TrimEnd { .. })
}

fn is_at_end(call: &Call) -> bool {
  matches!(call, Call::Append { .. } | Call::Prepend { .. })
}

fn compared(count: Count, calls: u64) -> Compared {
  let mut core = Counter { right: StandIn::new(1), count };
  compare(&mut core, 9, calls, Duration::MAX)
}

#[test]
fn wrong_counts_are_caught() {
  for (name, is_told, count) in WRONG {
    let Compared { tally, different } = compared(count, 40_000);
    println!("{name}: behind {} papers, {} calls", tally.papers, tally.calls);
    let (paper, found) = different.unwrap_or_else(|| panic!("not caught: {name}"));
    assert!(found.what.starts_with("value "), "{name}\n{paper}{}", found.what);
    let last = paper.calls.last().expect("a call that differs");
    assert!(is_told(&last.call), "{name}\n{paper}{}", found.what);
    assert!(paper.calls.len() <= 3, "{name}\n{paper}{}", found.what);
  }
}

/// The cuts that make two chunks, by what each cut does on the desk before.
#[test]
fn right_counts_are_not() {
  if let Some((paper, found)) = compared(|edit| edit.count(&[Cut::Made]), 40_000).different {
    panic!("{paper}{}", found.what);
  }
}

/// The numbers that leave cuts come with as many as they may, 13 takes as many back, and
/// no other number has any.
#[test]
fn every_number_that_leaves_cuts_has_some() {
  let tally = compare(&mut StandIn::new(2), 2, 40_000, Duration::MAX).tally;
  let most = [
    (ACCEPTED, MANY),
    (CUT_IN_REPLACEMENT, 2),
    (ACROSS_MOVED_EDGE, 2),
    (NOT_TOGETHER, 3),
    (PAST_SOURCE, 1),
    (LIMIT, MANY),
  ];
  let expected =
    most.into_iter().flat_map(|(number, most)| (1..=most).map(move |cuts| (number, cuts)));
  assert_eq!(tally.cuts.into_keys().collect::<Vec<_>>(), expected.collect::<Vec<_>>());
}
