//! Sheets with as many records, as many bytes and as long a source as there may be,
//! and one less and one more.

use oracle::{
  APPEND_LEFT, APPEND_RIGHT,
  Call::{self, *},
  insertions,
};

use super::{
  broken::Tried,
  fields::{Fields, Record},
  reading::{MOST_RECORDS, MOST_SHEET},
};
use crate::layout::MOST_SOURCE;

pub fn all() -> Vec<Tried> {
  [counts(), sizes(), longer(), sources()].concat()
}

/// So many records of each kind.
fn counts() -> Vec<Tried> {
  let calls = [
    Remove { start: 1, end: 2 },
    UpdateWith { start: 0, end: 3, overwrite: 1, text: b"x".to_vec() },
    Reset { start: 0, end: 3 },
    Relocate { start: 0, end: 1, to: 3 },
  ];
  let insertions = insertions(1, b"x");
  let counts = [MOST_RECORDS - 1, MOST_RECORDS, MOST_RECORDS + 1];
  let each = |call| counts.map(|count| Fields::of(b"abc", &vec![Call::clone(call); count]));
  let calls = calls.iter().chain(&insertions);
  calls.flat_map(each).map(|sheet| ("many records", sheet.bytes())).collect()
}

/// Sheets with so many bytes: in one text, in many, and in the source.
fn sizes() -> Vec<Tried> {
  let sizes = [MOST_SHEET - 1, MOST_SHEET, MOST_SHEET + 1, MOST_SHEET + 2, 60_000];
  let each = |size| [one_text(size), many_texts(size), source_alone(size)];
  sizes.into_iter().flat_map(each).map(|sheet| ("many bytes", sheet)).collect()
}

/// An insertion whose text fills the sheet, and a removal behind it.
fn one_text(size: usize) -> Vec<u8> {
  let insertion = |len| Insert { at: 1, text: vec![b'x'; len], setting: APPEND_LEFT };
  let calls = |len| [insertion(len), Remove { start: 0, end: 1 }];
  let empty = Fields::of(b"abc", &calls(0)).bytes().len();
  Fields::of(b"abc", &calls(size - empty)).bytes()
}

/// As many insertions as there may be, with a source of the longest length.
fn many_texts(size: usize) -> Vec<u8> {
  let mut sheet = Fields::of(&[b'a'; MOST_SOURCE], &[]);
  let left = size - sheet.bytes().len();
  let text = |place: usize| (place + 1) * left / MOST_RECORDS - place * left / MOST_RECORDS - 7;
  let call =
    |place| Insert { at: 80 * place as u32, text: vec![b'x'; text(place)], setting: APPEND_RIGHT };
  sheet.records = (0..MOST_RECORDS).map(call).map(|call| Record::of(&call)).collect();
  sheet.bytes()
}

fn source_alone(size: usize) -> Vec<u8> {
  Fields::of(&vec![b'a'; size - 3], &[]).bytes()
}

/// A sheet of the most bytes with more behind it, up to more than a pipe holds.
fn longer() -> Vec<Tried> {
  let longer = |more| [one_text(MOST_SHEET), vec![0; more]].concat();
  [1, 2, 100, 10_000, 200_000].map(|more| ("bytes behind a full sheet", longer(more))).to_vec()
}

/// Sources of these lengths, all there, of characters of one byte and of two, with
/// an end that is UTF-8 and one that is not.
fn sources() -> Vec<Tried> {
  let mut sheets = Vec::new();
  for len in [MOST_SOURCE - 1, MOST_SOURCE, MOST_SOURCE + 1, MOST_SHEET - 20, u16::MAX.into()] {
    for (character, last) in [("a", b'a'), ("é", b'a'), ("é", 0xff)] {
      let mut source = character.repeat((len - 1) / character.len()).into_bytes();
      source.resize(len, last);
      let sheet = Fields::of(&source, &[Remove { start: 2, end: len as u32 }]);
      sheets.push(("a long source", sheet.bytes()));
    }
  }
  sheets
}
