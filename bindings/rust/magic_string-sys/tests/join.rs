//! `join` on lent memory, where the types of the crate magic_string rule a case out: memory
//! that is no desk. Each refusal leaves every word and byte as it was.

use magic_string_sys::{Answer, edit, layout::*, numbers::*};

/// All that a join may write, and the source.
#[derive(Debug, Clone, PartialEq)]
struct Lent {
  source: Vec<u8>,
  chunks: Vec<u32>,
  pieces: Vec<u32>,
  store: Vec<u8>,
}

// Sound: each address comes with the length of its slice, and the slices that are written
// lie apart.
impl Lent {
  fn open(source: &str) -> Self {
    let mut lent = Self {
      source: source.into(),
      chunks: vec![0; CHUNKS_LEN],
      pieces: vec![0; PIECES_LEN],
      store: vec![0; STORE_LEN],
    };
    assert_eq!(unsafe { edit!(lent, magic_string_open) }, Answer::ACCEPTED);
    lent
  }

  fn join(&mut self, first: &[u8], second: &[u8]) -> Answer {
    let (first, first_len) = (first.as_ptr(), first.len());
    let (second, second_len) = (second.as_ptr(), second.len());
    unsafe { edit!(self, magic_string_join, first, first_len, second, second_len) }
  }

  /// That a join gives this number, with value 0, and changes nothing.
  fn refused(&self, number: u32, first: &[u8], second: &[u8]) {
    let mut lent = self.clone();
    assert_eq!(lent.join(first, second), Answer { number, value: 0 });
    assert_eq!(lent, *self);
  }
}

/// Removes a range.
fn remove(start: u8, end: u8) -> [u8; 11] {
  [0, 9, 1, 0, 0, 0, start, 0, 0, 0, end]
}

/// 2 comes before 16, and before what lists that are right would give.
#[test]
fn no_desk() {
  let lent = Lent::open("abc");
  let no_desk = |change: &dyn Fn(&mut Lent)| {
    let mut lent = lent.clone();
    change(&mut lent);
    for list in [&b""[..], b"\0", &remove(0, 1), &remove(1, 1)] {
      lent.refused(NOT_WELL_FORMED, list, b"");
      lent.refused(NOT_WELL_FORMED, b"", list);
    }
  };
  no_desk(&|lent| lent.chunks.truncate(CHUNKS_LEN - ROW));
  no_desk(&|lent| lent.pieces.push(0));
  no_desk(&|lent| lent.store.clear());
  // A desk that is not well formed over this source, and one without chunks.
  no_desk(&|lent| lent.source.push(b'd'));
  no_desk(&|lent| lent.chunks[START] = 0);
}

/// The value of an accepted join is the cuts, and one slice may be lent as both lists.
#[test]
fn values() {
  let lent = Lent::open("abcdef");
  assert_eq!(lent.clone().join(&remove(1, 2), &remove(3, 5)), Answer { number: 0, value: 4 });
  assert_eq!(lent.clone().join(b"", b""), Answer::ACCEPTED);
  lent.refused(BAD_SHEET, b"\0", &remove(1, 1));
  lent.refused(NOT_APART, &remove(1, 2), &remove(1, 2));
  let list = remove(1, 2);
  lent.refused(NOT_APART, &list, &list);
  Lent::open("é").refused(REFUSED_ALONE, &remove(0, 1), b"");
}
