//! Cores that are wrong on tables of some sizes, or on lists of edits alone, are
//! caught by the papers of any size or by damaged memory of other sizes.

use std::time::Duration;

use differential::{
  Answer, Core, Lent, Sizes, Unseen,
  compare::compare_on,
  cores::StandIn,
  damage::{self, Judge},
  image,
  layout::*,
  papers::sized,
};
use oracle::{Call, Desk, Limits, apply};

#[derive(Debug, Clone, Copy)]
enum Fault {
  /// 13 is judged by these limits.
  Limits(fn(Sizes) -> Limits),
  /// Tables of these sizes are taken, of others not.
  Takes(fn(Sizes) -> bool),
  /// Tables that are no desk's are taken for a part of them that is.
  CutsTables,
  /// A list's later edits write where an earlier one did.
  WritesOverInLists,
  /// A list stops at the first refusal.
  StopsAtRefusal,
}

#[derive(Debug, Clone)]
struct Wrong {
  right: StandIn,
  fault: Fault,
}

impl Wrong {
  fn new(fault: Fault) -> Self {
    Self { right: StandIn::of_any_size(1), fault }
  }

  /// The number with other limits, where the memory is a desk.
  fn number(&mut self, lent: &Lent, call: &Call) -> Option<u32> {
    let Fault::Limits(limits) = self.fault else { return None };
    let sizes = lent.sizes().filter(|_| self.right.well_formed(lent) == Answer::ACCEPTED)?;
    let data = image::decode(lent.source, lent.chunks, lent.pieces, lent.store);
    let edits = call.is_edit() && !matches!(call, Call::Open { .. });
    edits.then(|| apply(&mut Desk::build(limits(sizes), &data), call).number)
  }
}

impl Core for Wrong {
  fn name(&self) -> &'static str {
    "wrong"
  }

  fn call(&mut self, lent: &mut Lent, call: &Call, unseen: &Unseen, out: &mut [u8]) -> Answer {
    if let (Fault::Takes(takes), Some(sizes)) = (self.fault, lent.sizes())
      && !takes(sizes)
    {
      return Answer::NO_DESK;
    }
    let number = self.number(lent, call);
    let right = self.right.call(lent, call, unseen, out);
    number.map_or(right, |number| Answer { number, ..right })
  }

  /// As the inner functions: edits alone, with no excluded positions.
  fn has(&self, call: &Call) -> bool {
    let excludes = matches!(call, Call::IndentWith { exclude, .. } if !exclude.is_empty());
    call.is_edit() && !excludes
  }

  fn well_formed(&mut self, lent: &Lent) -> Answer {
    match (self.fault, lent.sizes()) {
      (Fault::Takes(takes), Some(sizes)) if !takes(sizes) => Answer::NO_DESK,
      (Fault::CutsTables, None) => {
        let mut chunks = whole_rows(lent.chunks, ROW, CHUNK_WORDS);
        let mut pieces = whole_rows(lent.pieces, PIECE, PIECE_WORDS);
        let mut store = whole_rows(lent.store, 1, STORE_BYTES);
        let (chunks, pieces, store) = (&mut chunks[..], &mut pieces[..], &mut store[..]);
        self.right.well_formed(&Lent { source: lent.source, chunks, pieces, store })
      }
      _ => self.right.well_formed(lent),
    }
  }

  fn takes(&self, _: Sizes) -> bool {
    true
  }

  fn list(&mut self, lent: &mut Lent, calls: &[&Call], unseen: &Unseen) -> Vec<Answer> {
    let mut answers: Vec<Answer> = Vec::new();
    for call in calls {
      let stopped = answers.iter().any(|answer| answer.number != 0);
      answers.push(match self.fault {
        Fault::StopsAtRefusal if stopped => Answer::ACCEPTED,
        _ => self.call(lent, call, unseen, &mut []),
      });
    }
    let inserted = calls.iter().filter(|call| call.text().is_some_and(|text| !text.is_empty()));
    if matches!(self.fault, Fault::WritesOverInLists) && inserted.count() > 1 {
      write_over(lent);
    }
    answers
  }
}

/// The whole rows of a table, up to the full size.
fn whole_rows<T: Clone>(table: &[T], row: usize, full: usize) -> Vec<T> {
  table[..full.min(table.len() / row * row)].to_vec()
}

/// Changes the first byte of the last replacement that has one.
fn write_over(lent: &mut Lent) {
  let count = lent.chunks[START] as usize;
  if lent.sizes().is_none() || count >= lent.chunks.len() / ROW {
    return;
  }
  let rows = lent.chunks.chunks(ROW).take(count + 1).skip(1);
  let texts = rows.filter(|row| row[TEXT_AT] != NONE && row[TEXT_N] > 0);
  if let Some(at) = texts.map(|row| row[TEXT_AT] as usize).last()
    && let Some(byte) = lent.store.get_mut(at)
  {
    *byte ^= 1;
  }
}

const FULL: Limits = Limits::FULL;

const BY_PAPERS: [(&str, Fault); 10] = [
  ("the full limits on every size", Fault::Limits(|_| FULL)),
  (
    "a chunk for each row",
    Fault::Limits(|sizes| {
      let limits = sizes.limits();
      Limits { chunks: limits.chunks + 1, ..limits }
    }),
  ),
  (
    "a piece for an odd last row",
    Fault::Limits(|sizes| Limits { pieces: sizes.piece_rows.div_ceil(2), ..sizes.limits() }),
  ),
  (
    "a piece for each row",
    Fault::Limits(|sizes| Limits { pieces: sizes.piece_rows, ..sizes.limits() }),
  ),
  (
    "bytes by whole words",
    Fault::Limits(|sizes| Limits { bytes: sizes.store.next_multiple_of(8), ..sizes.limits() }),
  ),
  (
    "bytes by words of marks, rounded down",
    Fault::Limits(|sizes| Limits { bytes: sizes.store / 64 * 64, ..sizes.limits() }),
  ),
  (
    "the full size and the half alone",
    Fault::Takes(|sizes| sizes == Sizes::FULL || sizes == Sizes::HALF),
  ),
  ("no table without rows", Fault::Takes(|sizes| sizes.piece_rows > 0 && sizes.store > 0)),
  ("later edits of a list write over earlier ones", Fault::WritesOverInLists),
  ("a list stops at a refusal", Fault::StopsAtRefusal),
];

#[test]
fn wrong_sizes_are_caught_by_papers() {
  for (name, fault) in BY_PAPERS {
    let compared = compare_on(sized::paper, &mut Wrong::new(fault), 8, 20_000, Duration::MAX);
    println!("{name}: {} calls", compared.tally.calls);
    let (paper, found) = compared.different.unwrap_or_else(|| panic!("not caught: {name}"));
    assert_eq!(found.call, paper.calls.len().checked_sub(1), "{name}\n{paper}{}", found.what);
  }
}

#[test]
fn wrong_sizes_are_caught_by_damage() {
  for fault in [Fault::CutsTables, Fault::Takes(|sizes| sizes.store != 0)] {
    let mut core = Wrong::new(fault);
    let judged = damage::of_any_size(&mut Judge::new(&mut core, 9), 9);
    assert!(judged.is_err(), "not caught: {fault:?}");
  }
}

/// No difference is found where there is none, and every number of an edit is met.
#[test]
fn no_edit_differs_on_any_size() {
  let mut core = StandIn::of_any_size(4);
  let compared = compare_on(sized::paper, &mut core, 4, 30_000, Duration::MAX);
  if let Some((paper, found)) = compared.different {
    panic!("{paper}{found:?}");
  }
  let numbers = compared.tally.numbers;
  let of_edits = (0..16).filter(|number| ![11, 12, 14].contains(number));
  assert!(of_edits.clone().all(|number| numbers[number] > 0), "not met: {numbers:?}");
  let judged = damage::of_any_size(&mut Judge::new(&mut core, 4), 4);
  judged.unwrap_or_else(|found| panic!("{found}"));
}
