//! Cores that are wrong in one way are caught.

use std::time::Duration;

use differential::{
  Answer, Core, Image, Lent, Unseen,
  compare::compare,
  cores::StandIn,
  damage::{self, Judge},
  image, layout, well_formed,
};
use oracle::{Call, random::Random};

#[derive(Debug, Clone, Copy, PartialEq, Eq)]
enum Fault {
  AcceptsAndChangesNothing,
  UndoesCutsAfterRefusal,
  DropsEmptyPiece,
  WritesBehindTheText,
  WritesTooShortBuffer,
  TouchesSpareWord,
  LeavesNoOpElsewhere,
  LeavesRefusedInsertionElsewhere,
  LooksAtSpareWord,
  TrustsPrev,
  ChecksArgumentsFirst,
}

#[derive(Debug, Clone)]
struct Wrong {
  right: StandIn,
  fault: Fault,
  random: Random,
}

impl Wrong {
  fn new(fault: Fault) -> Self {
    Self { right: StandIn::new(1), fault, random: Random::new(1) }
  }

  fn lay_out(&mut self, lent: &mut Lent, change: impl Fn(&mut Vec<String>)) {
    let mut desk = image::decode(lent.source, lent.chunks, lent.pieces, lent.store);
    change(&mut desk.head);
    change(&mut desk.tail);
    for chunk in &mut desk.chunks {
      change(&mut chunk.intro);
      change(&mut chunk.outro);
    }
    let image = image::encode(&desk, &mut self.random);
    put(&image, lent);
  }
}

fn put(image: &Image, lent: &mut Lent) {
  lent.chunks.copy_from_slice(&image.chunks);
  lent.pieces.copy_from_slice(&image.pieces);
  lent.store.copy_from_slice(&image.store);
}

fn taken(lent: &Lent) -> Image {
  Image {
    source: lent.source.to_vec(),
    chunks: lent.chunks.to_vec(),
    pieces: lent.pieces.to_vec(),
    store: lent.store.to_vec(),
  }
}

impl Core for Wrong {
  fn name(&self) -> &'static str {
    "wrong"
  }

  fn call(&mut self, lent: &mut Lent, call: &Call, unseen: &Unseen, out: &mut [u8]) -> Answer {
    if self.fault == Fault::AcceptsAndChangesNothing {
      return Answer::ACCEPTED;
    }
    if let (Fault::ChecksArgumentsFirst, Call::Trim { pattern: 2.. }) = (self.fault, call) {
      return Answer { number: 15, value: 0 };
    }
    let before = taken(lent);
    let answer = self.right.call(lent, call, unseen, out);
    match (self.fault, answer.number) {
      (Fault::UndoesCutsAfterRefusal, 6 | 7 | 9 | 10) => put(&before, lent),
      (Fault::DropsEmptyPiece, 0) if is_empty_insertion(call) => {
        self.lay_out(lent, |list| list.retain(|piece| !piece.is_empty()));
      }
      (Fault::WritesBehindTheText, 0) => {
        if let Some(byte) = out.get_mut(answer.value as usize) {
          *byte ^= 1;
        }
      }
      (Fault::WritesTooShortBuffer, 14) => out.iter_mut().for_each(|byte| *byte ^= 1),
      (Fault::TouchesSpareWord, 0) if !call.is_edit() => lent.chunks[10] ^= 1,
      (Fault::LeavesNoOpElsewhere, 0) if call.is_edit() => self.lay_out(lent, |_| ()),
      (Fault::LeavesRefusedInsertionElsewhere, 6) if is_insertion(call) => {
        self.lay_out(lent, |_| ());
      }
      _ => {}
    }
    answer
  }

  fn well_formed(&mut self, lent: &Lent) -> Answer {
    let mut image = taken(lent);
    let spare = image.chunks.get(11).is_some_and(|&word| word != 0);
    if self.fault == Fault::LooksAtSpareWord && spare {
      return Answer::NO_DESK;
    }
    if self.fault == Fault::TrustsPrev && image.chunks.len() == layout::CHUNK_WORDS {
      link_back(&mut image);
    }
    let holds = well_formed(&image.source, &image.chunks, &image.pieces, &image.store);
    if holds { Answer::ACCEPTED } else { Answer::NO_DESK }
  }
}

fn is_insertion(call: &Call) -> bool {
  !matches!(call, Call::UpdateWith { .. } | Call::IndentWith { .. }) && call.text().is_some()
}

fn is_empty_insertion(call: &Call) -> bool {
  is_insertion(call) && call.text().is_some_and(<[u8]>::is_empty)
}

/// Sets each `prev` to what `next` says.
fn link_back(image: &mut Image) {
  let count = image.count().min(layout::MOST_CHUNKS);
  for row in 0..=count {
    let next = image.word(row, layout::NEXT) as usize;
    if next <= count {
      *image.word_mut(next, layout::PREV) = row as u32;
    }
  }
}

/// The calls of the smallest paper on which the core is caught.
fn caught(fault: Fault) -> usize {
  let compared = compare(&mut Wrong::new(fault), 4, 20_000, Duration::MAX);
  let (paper, found) = compared.different.unwrap_or_else(|| panic!("{fault:?} was not caught"));
  assert_eq!(found.call, paper.calls.len().checked_sub(1), "{paper}{}", found.what);
  paper.calls.len()
}

fn caught_by_damage(fault: Fault) -> bool {
  let mut core = Wrong::new(fault);
  damage::all(&mut Judge::new(&mut core, 5), 5).is_err()
}

#[test]
fn one_that_accepts_and_changes_nothing() {
  assert_eq!(caught(Fault::AcceptsAndChangesNothing), 1);
}

#[test]
fn one_that_undoes_cuts_after_a_refusal() {
  assert!(caught(Fault::UndoesCutsAfterRefusal) <= 3);
}

#[test]
fn one_that_drops_an_empty_piece() {
  assert!(caught(Fault::DropsEmptyPiece) <= 2);
}

#[test]
fn ones_that_write_where_they_must_not() {
  assert!(caught(Fault::WritesBehindTheText) <= 2);
  assert!(caught(Fault::WritesTooShortBuffer) <= 2);
  assert!(caught(Fault::TouchesSpareWord) <= 2);
  assert!(caught(Fault::LeavesNoOpElsewhere) <= 2);
  assert!(caught(Fault::LeavesRefusedInsertionElsewhere) <= 3);
}

#[test]
fn ones_that_take_other_memory_for_a_desk() {
  assert!(caught_by_damage(Fault::TrustsPrev));
  assert!(caught_by_damage(Fault::ChecksArgumentsFirst));
  caught(Fault::LooksAtSpareWord);
}
