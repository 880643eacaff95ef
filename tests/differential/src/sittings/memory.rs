//! The memory of a record as it is lent, and cells beside it that are not lent.

use std::{fmt, ops::Range};

use oracle::{Call, random::Random};

use super::{
  Written,
  reading::{Entry, MOST_MARKS},
};
use crate::{
  Image, LentRecord,
  layout::*,
  sheets::fields::{Record, split_list},
};

/// Cells that are lent, in the middle of others.
#[derive(Debug, Clone, PartialEq, Eq)]
pub struct Cells<T> {
  all: Vec<T>,
  lent: Range<usize>,
}

impl<T: Copy> Cells<T> {
  /// So many cells, at any place, with what `fill` gives in each.
  fn new(len: usize, random: &mut Random, mut fill: impl FnMut(&mut Random) -> T) -> Self {
    let ahead = random.between(8, 15);
    let all = (0..ahead + len + 24).map(|_| fill(random)).collect();
    Self { all, lent: ahead..ahead + len }
  }

  /// These cells, with junk beside them.
  pub fn of(cells: &[T], random: &mut Random, junk: impl FnMut(&mut Random) -> T) -> Self {
    let mut new = Self::new(cells.len(), random, junk);
    new.lend().copy_from_slice(cells);
    new
  }

  pub fn lent(&self) -> &[T] {
    &self.all[self.lent.clone()]
  }

  pub fn lend(&mut self) -> &mut [T] {
    &mut self.all[self.lent.clone()]
  }
}

/// The words and the bytes of a record.
#[derive(Debug, Clone, PartialEq, Eq)]
pub struct Memory {
  pub words: Cells<u32>,
  pub bytes: Cells<u8>,
}

impl Memory {
  /// What is written, beside a desk over this source, with zeros in all other cells, or with
  /// junk; but marks of calls are none that a record cannot have.
  pub fn of(written: &Written, source: &str, random: &mut Random) -> Self {
    let Written { used, calls, answers, marks, lengths: [words, bytes], .. } = written;
    let mask = if random.one_in(3) { 0 } else { u64::MAX };
    let junk = |random: &mut Random| random.number() & mask;
    let mut memory = Self {
      words: Cells::new(*words, random, |random| junk(random) as u32),
      bytes: Cells::new(*bytes, random, |random| junk(random) as u8),
    };
    put(memory.words.lend(), RECORD_USED, &[*used]);
    put(memory.bytes.lend(), 0, calls);
    put(memory.bytes.lend(), RECORD_ANSWERS, answers);
    let (filed, _) = split_list(calls);
    let any_marks = filed.iter().map(|_| (junk(random) % (u64::from(MOST_MARKS) + 1)) as u8);
    let any_marks: Vec<u8> = any_marks.take(RECORD_CALLS).collect();
    put(memory.bytes.lend(), RECORD_MARKS, &any_marks);
    put(memory.bytes.lend(), RECORD_MARKS, marks);
    if let Some(image) = written.kept_tables(source, random) {
      memory.lend().keep(&image);
    }
    memory
  }

  /// An empty record.
  pub fn empty(random: &mut Random) -> Self {
    Self::of(&Written::calls(&[]), "", random)
  }

  pub fn lend(&mut self) -> LentRecord<'_> {
    LentRecord { words: self.words.lend(), bytes: self.bytes.lend() }
  }

  /// How many bytes the filed calls have.
  pub fn used(&self) -> usize {
    self.words.lent()[RECORD_USED] as usize
  }

  /// Takes these bytes of the calls, and the answers and marks of these, over from the other
  /// memory.
  pub fn take_over(&mut self, other: &Self, calls: Range<usize>, entries: Range<usize>) {
    let [answers, marks] =
      [RECORD_ANSWERS, RECORD_MARKS].map(|at| at + entries.start..at + entries.end);
    for freed in [calls, answers, marks].into_iter().filter(|freed| !freed.is_empty()) {
      self.bytes.lend()[freed.clone()].copy_from_slice(&other.bytes.lent()[freed]);
    }
  }

  /// The marks of all calls that there may be, where the bytes are long enough.
  pub fn marks(&self) -> &[u8] {
    self.bytes.lent().get(RECORD_MARKS..RECORD_MARKS + RECORD_CALLS).unwrap_or_default()
  }

  /// The same with these marks, as far as they go.
  pub fn with_marks(mut self, marks: &[u8]) -> Self {
    put(self.bytes.lend(), RECORD_MARKS, marks);
    self
  }

  /// The tables of the kept desk, over this source.
  pub fn kept(&self, source: &[u8]) -> Image {
    let (words, bytes) = (self.words.lent(), self.bytes.lent());
    Image {
      source: source.to_vec(),
      chunks: words[KEPT_CHUNKS..KEPT_PIECES].to_vec(),
      pieces: words[KEPT_PIECES..].to_vec(),
      store: bytes[KEPT_STORE..].to_vec(),
    }
  }

  /// What differs from the memory that is expected, if anything does.
  pub fn same_as(&self, expected: &Self) -> Result<(), String> {
    if self == expected {
      return Ok(());
    }
    let word = other_cell("word", &self.words, &expected.words);
    let byte = || other_cell("byte", &self.bytes, &expected.bytes);
    Err(word.or_else(byte).unwrap_or_else(|| "a cell beside the record changed".to_string()))
  }
}

/// The first lent cell that is another, with what it holds and what it should.
fn other_cell<T: fmt::Display + Copy + PartialEq>(
  name: &str,
  cells: &Cells<T>,
  expected: &Cells<T>,
) -> Option<String> {
  let (cells, expected) = (cells.lent(), expected.lent());
  let at = cells.iter().zip(expected).position(|(cell, other)| cell != other)?;
  Some(format!("{name} {at} of the record is {}, not {}", cells[at], expected[at]))
}

/// Writes as many cells as there is room for.
fn put<T: Copy>(cells: &mut [T], at: usize, written: &[T]) {
  let room = cells.get_mut(at..).unwrap_or_default();
  let len = room.len().min(written.len());
  room[..len].copy_from_slice(&written[..len]);
}

impl LentRecord<'_> {
  /// Puts these tables in the place of the kept desk.
  pub fn keep(&mut self, image: &Image) {
    put(self.words, KEPT_CHUNKS, &image.chunks);
    put(self.words, KEPT_PIECES, &image.pieces);
    put(self.bytes, KEPT_STORE, &image.store);
  }

  /// Writes the calls one behind the other, how many bytes they have, the answers and the
  /// marks.
  pub fn write(&mut self, record: &[Entry]) {
    let Written { used, calls, answers, marks, .. } = Written::of(record);
    self.words[RECORD_USED] = used;
    for (at, bytes) in [(0, calls), (RECORD_ANSWERS, answers), (RECORD_MARKS, marks)] {
      self.bytes[at..][..bytes.len()].copy_from_slice(&bytes);
    }
  }
}

/// The call in the form of a sheet's record.
pub fn call_bytes(call: &Call) -> Vec<u8> {
  Record::of(call).bytes()
}

#[cfg(test)]
mod tests {
  use super::*;

  /// Cells beside those that are lent are compared too.
  #[test]
  fn cells_beside_are_told() {
    let memory = Memory::empty(&mut Random::new(1));
    for place in [0, memory.bytes.lent.start - 1, memory.bytes.lent.end] {
      let mut other = memory.clone();
      other.bytes.all[place] ^= 1;
      assert!(other.same_as(&memory).is_err());
    }
    for place in [0, memory.words.lent.start - 1, memory.words.lent.end] {
      let mut other = memory.clone();
      other.words.all[place] ^= 1;
      assert!(other.same_as(&memory).is_err());
    }
  }
}
