//! Whether memory is a desk: document 01's sentence, clause by clause, in the
//! words of docs/LAYOUT.md. It is written to be read beside them, not to be fast.

use oracle::Limits;

use crate::{Sizes, layout::*};

/// True exactly if these four slices are a well-formed desk of the full sizes:
/// at most 512 chunks, 1,024 pieces and 32,768 bytes.
pub fn well_formed(source: &[u8], chunks: &[u32], pieces: &[u32], store: &[u8]) -> bool {
  let full = chunks.len() == 6_156 && pieces.len() == 4_096 && store.len() == 32_768;
  full && holds_desk(source, chunks, pieces, store)
}

/// True exactly if they are a well-formed desk, with the limits of tables of
/// their sizes.
pub fn holds_desk(source: &[u8], chunks: &[u32], pieces: &[u32], store: &[u8]) -> bool {
  let Some(sizes) = Sizes::of(chunks, pieces, store) else { return false };
  let desk = Memory { limits: sizes.limits(), source, chunks, pieces, store };
  desk.limits_of_source_and_chunks()
    && desk.spans_cover_the_source()
    && desk.one_list_holds_every_chunk()
    && desk.lists_lie_inside_and_apart()
    && desk.texts_lie_inside_and_apart()
    && desk.source_and_texts_are_utf8()
}

struct Memory<'a> {
  limits: Limits,
  source: &'a [u8],
  chunks: &'a [u32],
  pieces: &'a [u32],
  store: &'a [u8],
}

impl Memory<'_> {
  fn word(&self, row: usize, word: usize) -> usize {
    self.chunks[row * ROW + word] as usize
  }

  /// The rows of the chunks.
  fn rows(&self) -> std::ops::RangeInclusive<usize> {
    1..=self.word(0, START)
  }

  /// A source of at most 16,384 bytes, and at least a chunk and not too many. The
  /// clauses below rely on it.
  fn limits_of_source_and_chunks(&self) -> bool {
    let count = self.word(0, START);
    self.source.len() <= 16_384 && (1..=self.limits.chunks).contains(&count)
  }

  /// The spans cover the source once, end between characters, and none is empty;
  /// an empty source has one chunk 0 to 0.
  fn spans_cover_the_source(&self) -> bool {
    if self.source.is_empty() {
      return self.word(0, START) == 1 && self.word(1, START) == 0 && self.word(1, END) == 0;
    }
    let mut covered = vec![0_u32; self.source.len()];
    for row in self.rows() {
      let (start, end) = (self.word(row, START), self.word(row, END));
      if start >= end || end > self.source.len() {
        return false;
      }
      if end < self.source.len() && is_following_byte(self.source[end]) {
        return false;
      }
      for byte in &mut covered[start..end] {
        *byte += 1;
      }
    }
    covered.iter().all(|&times| times == 1)
  }

  /// `next` from row 0 meets each of rows 1 to n once and comes back to row 0,
  /// and `prev` leads the same way back.
  fn one_list_holds_every_chunk(&self) -> bool {
    let count = self.word(0, START);
    let mut met = vec![false; count + 1];
    let mut row = 0;
    for _ in 0..=count {
      let next = self.word(row, NEXT);
      if next > count || met[next] || self.word(next, PREV) != row {
        return false;
      }
      met[next] = true;
      row = next;
    }
    row == 0 && met.iter().all(|&met| met)
  }

  /// The first row and the number of rows of each list that has a piece: head,
  /// tail, and every chunk's intro and outro.
  fn lists(&self) -> Vec<(usize, usize)> {
    let mut lists = Vec::new();
    for row in 0..=self.word(0, START) {
      lists.push((self.word(row, INTRO_AT), self.word(row, INTRO_N)));
      lists.push((self.word(row, OUTRO_AT), self.word(row, OUTRO_N)));
    }
    lists.retain(|&(_, n)| n > 0);
    lists
  }

  /// Not too many pieces; every list lies inside `pieces`, and no row stands in
  /// two lists or twice in one.
  fn lists_lie_inside_and_apart(&self) -> bool {
    let lists = self.lists();
    let count = lists.iter().map(|&(_, n)| n).sum::<usize>();
    count <= self.limits.pieces && apart(&lists, self.pieces.len() / PIECE)
  }

  /// Where each text begins and how many bytes it has: pieces and replacements.
  fn texts(&self) -> Vec<(usize, usize)> {
    let mut texts = Vec::new();
    for (at, n) in self.lists() {
      for row in at..at + n {
        let piece = &self.pieces[row * PIECE..];
        texts.push((piece[AT] as usize, piece[N] as usize));
      }
    }
    for row in self.rows() {
      if self.chunks[row * ROW + TEXT_AT] != NONE {
        texts.push((self.word(row, TEXT_AT), self.word(row, TEXT_N)));
      }
    }
    texts
  }

  /// Not too many bytes; every text lies inside the store, an empty one too, and
  /// no byte belongs to two texts.
  fn texts_lie_inside_and_apart(&self) -> bool {
    let texts = self.texts();
    let bytes = texts.iter().map(|&(_, n)| n).sum::<usize>();
    bytes <= self.limits.bytes && apart(&texts, self.store.len())
  }

  fn source_and_texts_are_utf8(&self) -> bool {
    let is_utf8 = |bytes: &[u8]| std::str::from_utf8(bytes).is_ok();
    is_utf8(self.source) && self.texts().iter().all(|&(at, n)| is_utf8(&self.store[at..at + n]))
  }
}

/// Whether each block of `n` places from `at` on lies inside the room, and no
/// place belongs to two of them.
fn apart(blocks: &[(usize, usize)], room: usize) -> bool {
  if blocks.iter().any(|&(at, n)| at + n > room) {
    return false;
  }
  let mut taken = vec![false; room];
  for &(at, n) in blocks {
    for place in &mut taken[at..at + n] {
      if *place {
        return false;
      }
      *place = true;
    }
  }
  true
}

/// A place before such a byte is inside a character.
fn is_following_byte(byte: u8) -> bool {
  (0x80..=0xbf).contains(&byte)
}
