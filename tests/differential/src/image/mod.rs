//! A desk's memory as the caller keeps it, and its two readings: memory as a
//! desk, and a desk as memory.

mod decode;
mod encode;
mod places;

pub use decode::decode;
pub use encode::{Style, encode, encode_in};
pub use places::shuffle;

use oracle::{DeskData, dump, random::Random};

use crate::{Lent, Sizes, holds_desk, layout::*};

/// The memory of one desk. A damaged one may have any lengths.
#[derive(Debug, Clone, PartialEq, Eq)]
pub struct Image {
  pub source: Vec<u8>,
  pub chunks: Vec<u32>,
  pub pieces: Vec<u32>,
  pub store: Vec<u8>,
}

impl Image {
  /// Tables of the full sizes, filled with junk.
  pub fn junk(source: Vec<u8>, random: &mut Random) -> Self {
    Self::junk_in(Sizes::FULL, source, random)
  }

  /// Tables of these sizes, filled with junk.
  pub fn junk_in(sizes: Sizes, source: Vec<u8>, random: &mut Random) -> Self {
    let mut image = Self {
      source,
      chunks: vec![0; sizes.chunk_rows * ROW],
      pieces: vec![0; sizes.piece_rows * PIECE],
      store: vec![0; sizes.store],
    };
    match random.below(4) {
      0 => {}
      1 => {
        image.chunks.fill(u32::MAX);
        image.pieces.fill(u32::MAX);
        image.store.fill(0xff);
      }
      // Numbers that could be rows or places.
      2 => {
        let low = random.below(600) as u32;
        for (index, word) in image.chunks.iter_mut().chain(&mut image.pieces).enumerate() {
          *word = (index as u32 * 7 + low) % 600;
        }
        image.store.fill(b'j');
      }
      _ => {
        for word in image.chunks.iter_mut().chain(&mut image.pieces) {
          *word = random.number() as u32;
        }
        for eight in image.store.chunks_mut(8) {
          eight.copy_from_slice(&random.number().to_le_bytes()[..eight.len()]);
        }
      }
    }
    image
  }

  pub fn lend(&mut self) -> Lent<'_> {
    Lent {
      source: &self.source,
      chunks: &mut self.chunks,
      pieces: &mut self.pieces,
      store: &mut self.store,
    }
  }

  /// The same memory with another source, as `open` gets it.
  pub fn lend_with<'a>(&'a mut self, source: &'a [u8]) -> Lent<'a> {
    Lent { source, chunks: &mut self.chunks, pieces: &mut self.pieces, store: &mut self.store }
  }

  /// The sizes of the tables; none where they are no desk's.
  pub fn sizes(&self) -> Option<Sizes> {
    Sizes::of(&self.chunks, &self.pieces, &self.store)
  }

  /// How many rows `chunks` has.
  pub fn chunk_rows(&self) -> usize {
    self.chunks.len() / ROW
  }

  /// How many rows `pieces` has.
  pub fn piece_rows(&self) -> usize {
    self.pieces.len() / PIECE
  }

  /// The word of a row of `chunks`.
  pub fn word(&self, row: usize, word: usize) -> u32 {
    self.chunks[row * ROW + word]
  }

  pub fn word_mut(&mut self, row: usize, word: usize) -> &mut u32 {
    &mut self.chunks[row * ROW + word]
  }

  /// The word of a row of `pieces`.
  pub fn piece(&self, row: usize, word: usize) -> u32 {
    self.pieces[row * PIECE + word]
  }

  pub fn piece_mut(&mut self, row: usize, word: usize) -> &mut u32 {
    &mut self.pieces[row * PIECE + word]
  }

  /// How many chunks row 0 names.
  pub fn count(&self) -> usize {
    self.chunks[START] as usize
  }

  /// Takes over the words and bytes of `other`, in the memory that is there.
  pub fn copy_from(&mut self, other: &Image) {
    self.source.clone_from(&other.source);
    self.chunks.clone_from(&other.chunks);
    self.pieces.clone_from(&other.pieces);
    self.store.clone_from(&other.store);
  }

  /// The memory is well formed and holds that desk: source, head and tail pieces, and
  /// chunks in list order with span, mark, intro, outro and replacement.
  pub fn check_desk(&self, expected: &DeskData) -> Result<(), String> {
    let Self { source, chunks, pieces, store } = self;
    if !holds_desk(source, chunks, pieces, store) {
      return Err("the desk is not well formed".to_string());
    }
    let desk = decode(source, chunks, pieces, store);
    if desk != *expected {
      let (desk, expected) = (dump::print(&desk), dump::print(expected));
      return Err(format!("the desk is {desk}\n  and not {expected}"));
    }
    Ok(())
  }

  /// Whether the three tables hold the same words and bytes.
  pub fn same_tables(&self, other: &Image) -> bool {
    self.chunks == other.chunks && self.pieces == other.pieces && self.store == other.store
  }
}
