//! Lists with as many records and bytes as there may be, one less and one more; as many
//! calls as may be joined; and empty lists.

use std::{ops::Range, slice};

use oracle::{
  APPEND_LEFT, APPEND_RIGHT,
  Call::{self, *},
};

use super::{Lists, Pair, lists::list};
use crate::{
  sheets::reading::{MOST_RECORDS, MOST_SHEET},
  sittings::HARMS,
};

pub fn all() -> Vec<Pair> {
  [counts(), clashing(), sizes(), empties()].concat()
}

fn insert(at: usize, len: usize) -> Call {
  Insert { at: at as u32, text: vec![b'x'; len], setting: APPEND_LEFT }
}

/// Insertions at these places, each of which reaches another byte.
fn apart(places: Range<usize>) -> Vec<Call> {
  places.map(|place| insert(2 * place + 1, 1)).collect()
}

/// So many calls in the two lists, all of them apart: on a fresh desk 170 are joined, and
/// of more there is no space for the cuts.
fn counts() -> Vec<Pair> {
  let source = "ab".repeat(2 * MOST_RECORDS + 2);
  let mut counts = vec![[85, 85], [85, 86], [170, 0], [171, 0], [1, 169], [1, 170], [100, 70]];
  for most in [MOST_RECORDS - 1, MOST_RECORDS, MOST_RECORDS + 1] {
    counts.extend([[most, 0], [most, 1], [most, most], [most, MOST_RECORDS], [most, 85]]);
  }
  let joined = |[first, second]: [usize; 2]| {
    let lists = Lists::of(&apart(0..first), &apart(first..first + second));
    Pair::fresh("many calls", &source, lists)
  };
  counts.into_iter().map(joined).collect()
}

/// Many calls that are not apart, or are refused alone.
fn clashing() -> Vec<Pair> {
  let source = "ab".repeat(MOST_RECORDS + 2);
  let refused = Insert { at: 1, text: vec![0xff], setting: APPEND_RIGHT };
  let mut all = Vec::new();
  for count in [MOST_RECORDS - 1, MOST_RECORDS, MOST_RECORDS + 1] {
    let many = apart(0..count);
    let last = &many[count - 1..];
    for second in [last, slice::from_ref(&refused)] {
      all.push(Lists::of(&many, second));
    }
    all.push(Lists::of(&[&many[1..], last].concat(), &[]));
    all.push(Lists::of(&vec![insert(1, 1); count], &[]));
    all.push(Lists::of(&vec![refused.clone(); count], &many));
  }
  all.into_iter().map(|lists| Pair::fresh("many calls that clash", &source, lists)).collect()
}

/// Lists of so many bytes, in one text and in many, beside an empty one, a short one and
/// one of the same size.
fn sizes() -> Vec<Pair> {
  let source = "ab".repeat(2 * MOST_RECORDS + 2);
  let mut all = Vec::new();
  for size in [MOST_SHEET - 1, MOST_SHEET, MOST_SHEET + 1, MOST_SHEET + 2, 60_000, 65_537] {
    for first in [one_text(size), many_texts(size, 0)] {
      let seconds = [Vec::new(), list(&[insert(801, 1)]), many_texts(MOST_SHEET, MOST_RECORDS)];
      for second in seconds {
        let lists = Lists { first: first.clone(), second };
        all.push(Pair::fresh("many bytes", &source, lists));
      }
    }
  }
  all
}

/// One insertion whose text fills the list: it has no room on a desk.
fn one_text(size: usize) -> Vec<u8> {
  let empty = list(&[insert(1, 0)]).len();
  list(&[insert(1, size - empty)])
}

/// As many insertions as there may be, from this place on.
fn many_texts(size: usize, from: usize) -> Vec<u8> {
  let share = |place: usize| (place + 1) * size / MOST_RECORDS - place * size / MOST_RECORDS - 7;
  let call = |place| insert(2 * (from + place) + 1, share(place));
  list(&(0..MOST_RECORDS).map(call).collect::<Vec<_>>())
}

/// The first list empty, the second, and both: on fresh desks and on desks in use, over a
/// source and over none; and where there is no desk.
fn empties() -> Vec<Pair> {
  let before = [insert(0, 2), Relocate { start: 0, end: 0, to: 0 }];
  let calls = [
    vec![],
    vec![insert(0, 1)],
    vec![Insert { at: 0, text: b"r".to_vec(), setting: APPEND_RIGHT }],
    vec![insert(0, 0)],
    vec![Remove { start: 0, end: 0 }],
    vec![Relocate { start: 0, end: 0, to: 0 }],
    vec![Insert { at: 0, text: b"\xff".to_vec(), setting: APPEND_LEFT }],
  ];
  let mut all = Vec::new();
  for source in ["", "a", "aé"] {
    for before in [&before[..], &[]] {
      for call in &calls {
        let pair = Pair::in_use("empty lists", source, before, Lists::of(call, &[]));
        all.push(Pair { harm: Some(HARMS[all.len() % HARMS.len()]), ..pair.clone() });
        all.push(pair);
      }
    }
  }
  all
}
