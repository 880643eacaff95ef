//! `freeze` on lent memory, beside a record, and what 20 leaves; where the types of the
//! crate magic_string rule a case out: memory that is no record, any word as a mark.

mod lent;

use lent::*;
use magic_string_sys::{Answer, layout::*, numbers::*};

impl Lent {
  /// That a call gives this number, with value 0, and leaves every word and byte as it was.
  fn unchanged(&self, number: u32, call: impl FnOnce(&mut Lent) -> Answer) {
    let mut lent = self.clone();
    assert_eq!(call(&mut lent), edited(number, 0));
    assert_eq!(lent, *self);
  }

  /// That a call on a range is refused with 20 and makes no cut: the desk is as it was.
  fn in_the_range(&self, call: impl FnOnce(&mut Lent) -> Answer) {
    let mut lent = self.clone();
    assert_eq!(call(&mut lent), edited(FROZEN, 0));
    assert_eq!((lent.spans(), lent.text()), (self.spans(), self.text()));
  }
}

/// The mark of each chunk of the range is set, and the record is not written.
#[test]
fn marks() {
  let mut lent = Lent::open("abcdef", 0xA5);
  let (words, bytes) = (lent.words.clone(), lent.bytes.clone());
  assert_eq!(lent.freeze(2, 4), edited(0, 2));
  assert_eq!(lent.frozen(), [(2, 4)]);
  // Again, and a wider range; a cut has both halves frozen.
  assert_eq!(lent.freeze(2, 4), edited(0, 0));
  assert_eq!(lent.freeze(3, 5), edited(0, 2));
  assert_eq!(lent.frozen(), [(2, 3), (3, 4), (4, 5)]);
  assert_eq!((&lent.words, &lent.bytes), (&words, &bytes));
  assert_eq!(lent.text(), "abcdef");
  assert_eq!(lent.open_anew(), Answer::ACCEPTED);
  assert_eq!(lent.frozen(), []);
}

/// Numbers in order, reset's behind those of the record. Zero width does nothing.
#[test]
fn numbers() {
  let mut lent = Lent::open("aébcd", 0);
  lent.unchanged(INSIDE_CHARACTER, |lent| lent.freeze(2, 1));
  lent.unchanged(INSIDE_CHARACTER, |lent| lent.freeze(2, 2));
  lent.unchanged(END_BEFORE_START, |lent| lent.freeze(8, 7));
  lent.unchanged(PAST_SOURCE, |lent| lent.freeze(0, 7));
  lent.unchanged(0, |lent| lent.freeze(9, 9));
  assert_eq!(lent.update(3, 5, b"X"), edited(0, 2));
  // The cut at 1 stays; nothing is frozen.
  assert_eq!(lent.freeze(1, 4), edited(CUT_IN_REPLACEMENT, 1));
  assert_eq!(lent.frozen(), []);
  assert_eq!(lent.freeze(3, 6), edited(0, 0));
  assert_eq!(lent.frozen(), [(3, 5), (5, 6)]);
}

#[test]
fn limits() {
  let mut lent = Lent::open(&"a".repeat(1_100), 0);
  for at in 0..255 {
    assert_eq!(lent.freeze(4 * at + 1, 4 * at + 3), edited(0, 2));
  }
  // 511 chunks: one cut more is the last. 20 would leave two here.
  lent.unchanged(LIMIT, |lent| lent.freeze(1_050, 1_060));
  lent.unchanged(LIMIT, |lent| lent.remove(1_000, 1_060));
  assert_eq!(lent.freeze(1_050, 1_100), edited(0, 1));
  lent.unchanged(LIMIT, |lent| lent.remove(0, 1_060));
  lent.in_the_range(|lent| lent.remove(0, 1_100));
}

/// While calls are filed, freezing is 20, before all but 2; without them it is free again.
#[test]
fn calls_filed() {
  let mut lent = Lent::open("aébcd", 0xA5);
  assert_eq!(lent.freeze(3, 4), edited(0, 2));
  assert_eq!(lent.file(&append_left(1, b"!")), edited(0, 1));
  for (start, end) in [(0, 1), (2, 2), (0, 2), (2, 1), (3, 3), (0, 9)] {
    lent.unchanged(FROZEN, |lent| lent.freeze(start, end));
  }
  // So it is on a desk that was opened anew.
  assert_eq!(lent.open_anew(), Answer::ACCEPTED);
  lent.unchanged(FROZEN, |lent| lent.freeze(0, 1));
  assert_eq!(lent.withdraw(1), Answer::ACCEPTED);
  assert_eq!(lent.frozen(), [(3, 4)]);
  assert_eq!(lent.freeze(4, 6), edited(0, 0));
  assert_eq!(lent.frozen(), [(3, 4), (4, 6)]);
}

/// What 20 leaves: both cuts where the range has a frozen chunk, nothing where the desk has.
#[test]
fn frozen_chunks() {
  let mut lent = Lent::open("  abcdefgh  ", 0);
  assert_eq!(lent.freeze(4, 6), edited(0, 2));
  let calls: [fn(&mut Lent) -> Answer; 3] =
    [|lent| lent.remove(3, 8), |lent| lent.update(3, 8, b"X"), |lent| lent.reset(3, 8)];
  for call in calls {
    let mut lent = lent.clone();
    assert_eq!(call(&mut lent), edited(FROZEN, 2));
    assert_eq!(lent.frozen(), [(4, 6)]);
    assert_eq!(lent.text(), "  abcdefgh  ");
    lent.in_the_range(call);
  }
  // A cut inside the frozen chunk makes two of it, before the range is looked at.
  let mut cut = lent.clone();
  assert_eq!(cut.remove(0, 5), edited(FROZEN, 1));
  assert_eq!(cut.frozen(), [(4, 5), (5, 6)]);
  // An end past the source is accepted in a removal, and an update's 10 comes before 20.
  assert_eq!(lent.clone().remove(5, 99), edited(FROZEN, 1));
  assert_eq!(lent.clone().update(5, 99, b"X"), edited(PAST_SOURCE, 1));
  lent.unchanged(PAST_SOURCE, |lent| lent.reset(5, 99));
  lent.unchanged(0, |lent| lent.remove(5, 5));
  lent.unchanged(ZERO_WIDTH, |lent| lent.update(5, 5, b""));

  // 15 and 3 come before the desk's 20, an empty indentor behind it.
  lent.unchanged(FROZEN, |lent| lent.trim(0));
  lent.unchanged(FROZEN, |lent| lent.trim(1));
  lent.unchanged(BAD_OPTION, |lent| lent.trim(2));
  lent.unchanged(FROZEN, |lent| lent.indent(b">", &[]));
  lent.unchanged(FROZEN, |lent| lent.indent(b"", &[]));
  lent.unchanged(NOT_UTF8, |lent| lent.indent(b"\xFF", &[]));
  lent.unchanged(BAD_OPTION, |lent| lent.indent(b"\xFF", &[0]));
  let mut inside = Lent::open("é", 0);
  assert_eq!(inside.freeze(0, 2), edited(0, 0));
  inside.unchanged(INSIDE_CHARACTER, |lent| lent.indent(b">", &[0, 1]));
}

/// Replacing across a moved edge: 20 comes before 7, and clears no chunk.
#[test]
fn before_seven() {
  let mut lent = Lent::open("abcd", 0);
  assert_eq!(lent.freeze(1, 2), edited(0, 2));
  // relocate(2, 3, 4), filed, so that the desk's list is a, b, d, c.
  assert_eq!(lent.file(&call(8, &[2, 3, 4], b"")), edited(0, 1));
  assert_eq!(lent.update(0, 3, b"X"), edited(FROZEN, 0));
  assert_eq!(lent.text(), "abdc");
}

/// Any word but 0 is the mark, and none makes a desk ill formed.
#[test]
fn any_word() {
  let mut lent = Lent::open("ab", 0);
  for word in [1, 2, 0x8000_0000, u32::MAX] {
    lent.chunks[ROW + MARK] = word;
    lent.in_the_range(|lent| lent.remove(0, 2));
    lent.unchanged(FROZEN, |lent| lent.trim(0));
    let mut cut = lent.clone();
    assert_eq!(cut.remove(0, 1), edited(FROZEN, 1));
    assert_eq!(cut.frozen(), [(0, 1), (1, 2)]);
  }
  // The desk's own row and the word behind the mark are not looked at.
  lent.chunks[ROW + MARK] = 0;
  (lent.chunks[MARK], lent.chunks[ROW + MARK + 1]) = (1, 1);
  assert_eq!(lent.remove(0, 2), edited(0, 0));
}

/// A filed call is refused by the mark, and a withdrawal keeps it.
#[test]
fn filed() {
  let mut lent = Lent::open("abcdef", 0);
  assert_eq!(lent.freeze(2, 4), edited(0, 2));
  assert_eq!(lent.file(&append_left(1, b"!")), edited(0, 1));
  assert_eq!(lent.file(&remove(0, 5)), edited(FROZEN, 1));
  assert_eq!(lent.answers(2), [0, 20]);
  assert_eq!(lent.withdraw(1), Answer::ACCEPTED);
  assert_eq!((lent.answers(1), lent.text()), (&[20][..], "abcdef".to_string()));
  assert_eq!(lent.frozen(), [(2, 4)]);
  assert_eq!(lent.kept().frozen(), [(2, 4)]);
}
