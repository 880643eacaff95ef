//! Premises of the any-order rule broken one by one and two at once, inside one list and
//! across the two.

use oracle::{
  APPEND_LEFT, APPEND_RIGHT,
  Call::{self, *},
  PREPEND_LEFT, PREPEND_RIGHT, Setting, insertions,
};

use super::{Lists, Pair};
use crate::layout::MOST_BYTES;

pub fn all() -> Vec<Pair> {
  [each(), two_at_once()].concat()
}

/// Positions 9, 11 and 12 lie inside characters.
const SOURCE: &str = "abcdefghé€jk";
const END: u32 = SOURCE.len() as u32;

/// The desk shows "acd", "b", "XY", "ghé€jk": a chunk is replaced and one is moved.
fn in_use() -> [Call; 2] {
  [update(4, 6, b"XY"), Relocate { start: 1, end: 2, to: 4 }]
}

fn remove(start: u32, end: u32) -> Call {
  Remove { start, end }
}

fn reset(start: u32, end: u32) -> Call {
  Reset { start, end }
}

fn update(start: u32, end: u32, text: &[u8]) -> Call {
  UpdateWith { start, end, overwrite: 1, text: text.to_vec() }
}

fn insert(setting: Setting, at: u32) -> Call {
  with_text(setting, at, b"i")
}

fn with_text(setting: Setting, at: u32, text: &[u8]) -> Call {
  Insert { at, text: text.to_vec(), setting }
}

fn relocate(start: u32, end: u32, to: u32) -> Call {
  Relocate { start, end, to }
}

/// Calls that break a premise.
type Fault = Vec<Call>;

/// Two calls that reach the same byte, the head or the tail.
fn reaches() -> Vec<Fault> {
  let mut all = vec![
    vec![remove(6, 7), reset(6, 7)],
    vec![update(6, 8, b"U"), remove(7, 8)],
    vec![remove(6, 8), update(7, 10, b"")],
    vec![reset(0, END), remove(13, 14)],
    vec![remove(8, 10), remove(8, 10)],
    // Left insertions reach the byte before their place, right ones the one behind it.
    vec![insert(APPEND_LEFT, 7), remove(6, 7)],
    vec![insert(PREPEND_LEFT, 10), reset(8, 10)],
    vec![insert(APPEND_RIGHT, 7), update(7, 8, b"U")],
    vec![insert(PREPEND_RIGHT, 10), remove(10, 13)],
    vec![insert(APPEND_LEFT, 8), insert(APPEND_RIGHT, 7)],
  ];
  for [one, other] in [[APPEND_LEFT, PREPEND_LEFT], [APPEND_RIGHT, PREPEND_RIGHT]] {
    for at in [0, 1, 7, 14, END] {
      all.push(vec![insert(one, at), insert(one, at)]);
      all.push(vec![insert(one, at), insert(other, at)]);
    }
  }
  all
}

fn past_the_end() -> Vec<Fault> {
  let mut calls = vec![
    remove(13, END + 1),
    remove(END + 1, END + 2),
    update(13, END + 1, b"U"),
    reset(13, END + 1),
    relocate(13, 14, END + 1),
    relocate(13, END + 1, 0),
    relocate(END + 1, END + 1, 0),
    remove(13, u32::MAX),
    relocate(6, 7, u32::MAX),
  ];
  calls.extend(insertions(END + 1, b"i"));
  calls.extend(insertions(u32::MAX, b"i"));
  calls.into_iter().map(|call| vec![call]).collect()
}

/// Ranges of no width, and those that end before they start.
fn widths() -> Vec<Fault> {
  let ranges = [(7, 7), (0, 0), (END, END), (5, 5), (7, 6), (END, 0), (1, 0)];
  let each = |(start, end)| [remove(start, end), reset(start, end), update(start, end, b"U")];
  ranges.into_iter().flat_map(each).map(|call| vec![call]).collect()
}

fn two_moves() -> Vec<Fault> {
  vec![
    vec![relocate(6, 7, 14), relocate(13, 14, 6)],
    vec![relocate(6, 7, 14), relocate(6, 7, 14)],
    // Moves that do nothing are moves too.
    vec![relocate(6, 6, 14), relocate(13, 13, 6)],
    vec![relocate(6, 7, 8), relocate(13, 13, 13)],
  ]
}

/// A position of a move strictly inside a replaced range: each of the three, in each of
/// some replacements.
fn moves_inside() -> Vec<Fault> {
  let mut all = Vec::new();
  for text in [&b"U"[..], b""] {
    for range in [(6, 8), (6, 13), (2, 4)] {
      let (start, end) = range;
      let inside = if end == 13 { 10 } else { start + 1 };
      let moves =
        [relocate(inside, 14, END), relocate(13, 14, inside), relocate(start, inside, END)];
      all.extend(moves.map(|moved| vec![update(start, end, text), moved]));
    }
  }
  all
}

/// Calls that are refused alone, by what they get: 1, 3, 4, 6, 7, 8, 9 and 13.
fn refused_alone() -> Vec<Fault> {
  let long = vec![b'x'; MOST_BYTES - 1];
  let mut calls = vec![
    update(6, 7, b"\xff"),
    with_text(APPEND_RIGHT, 7, b"a\xc3"),
    insert(APPEND_LEFT, 9),
    insert(PREPEND_RIGHT, 11),
    remove(8, 9),
    reset(12, 13),
    relocate(6, 9, END),
    relocate(7, 6, END),
    insert(APPEND_LEFT, 5),
    insert(APPEND_RIGHT, 5),
    remove(5, 7),
    reset(5, 6),
    relocate(5, 7, 14),
    update(0, 2, b"U"),
    update(1, 3, b""),
    relocate(6, 8, 7),
    relocate(0, 2, END),
    update(6, 7, &long),
    with_text(APPEND_LEFT, 7, &long),
  ];
  // The texts are no longer than there is room for without the desk's own two bytes.
  calls.push(with_text(APPEND_RIGHT, END, &long));
  calls.into_iter().map(|call| vec![call]).collect()
}

/// Calls that are refused alone and accepted behind the one before them.
fn accepted_behind() -> Vec<Fault> {
  vec![
    // The replacement is undone before it is cut.
    vec![reset(4, 6), relocate(5, 6, 14)],
    vec![reset(2, 6), relocate(13, 14, 5)],
    // What stood between the two bytes is moved away.
    vec![relocate(2, 4, 6), update(0, 2, b"U")],
    // The desk's own two bytes are freed.
    vec![remove(4, 6), with_text(APPEND_LEFT, 8, &[b'x'; MOST_BYTES])],
    vec![update(4, 6, b""), with_text(APPEND_RIGHT, 8, &[b'x'; MOST_BYTES - 1])],
  ]
}

/// Each of them in each place, with no call beside it and with some.
fn each() -> Vec<Pair> {
  let faults = [
    ("two calls reach the same", reaches()),
    ("a position past the end", past_the_end()),
    ("a width of no byte", widths()),
    ("two moves", two_moves()),
    ("a move inside a replacement", moves_inside()),
    ("refused alone", refused_alone()),
    ("refused alone, accepted behind another", accepted_behind()),
  ];
  let mut all = Vec::new();
  for (tries, faults) in faults {
    for fault in faults {
      for [first, second] in places(&fault) {
        let beside = [insert(APPEND_RIGHT, 13), remove(14, END)];
        let [more_first, more_second] =
          [[&beside[..1], &first[..]].concat(), [&second[..], &beside[1..]].concat()];
        all.push(on_desk(tries, &first, &second));
        all.push(on_desk(tries, &more_first, &more_second));
      }
    }
  }
  all
}

fn on_desk(tries: &'static str, first: &[Call], second: &[Call]) -> Pair {
  Pair::in_use(tries, SOURCE, &in_use(), Lists::of(first, second))
}

/// In one list and, of two calls, across both; the other order of the lists is tried of
/// every pair.
pub fn places(fault: &[Call]) -> Vec<[Vec<Call>; 2]> {
  let turned: Vec<Call> = fault.iter().rev().cloned().collect();
  let mut places = vec![[fault.to_vec(), Vec::new()]];
  if let [one, other] = fault {
    places.extend([[turned, Vec::new()], [vec![one.clone()], vec![other.clone()]]]);
  }
  places
}

/// One of each kind beside each other: in the same list, in the two lists, and each of
/// them across both.
fn two_at_once() -> Vec<Pair> {
  let faults = [
    vec![remove(6, 8), reset(7, 8)],
    vec![insert(APPEND_LEFT, END + 1)],
    vec![reset(7, 7)],
    vec![relocate(6, 7, 13), relocate(13, 14, 6)],
    vec![update(6, 8, b""), relocate(13, 14, 7)],
    vec![with_text(APPEND_RIGHT, 13, b"\xff")],
    vec![insert(APPEND_LEFT, 9)],
    vec![insert(APPEND_RIGHT, 5)],
    vec![update(0, 2, b"U")],
    vec![relocate(0, 2, END)],
    vec![with_text(APPEND_LEFT, 14, &[b'x'; MOST_BYTES - 1])],
    // Both are accepted alone, and there is no space for both.
    vec![with_text(APPEND_LEFT, 2, &[b'x'; 20_000]), with_text(APPEND_LEFT, 3, &[b'x'; 20_000])],
  ];
  let mut all = Vec::new();
  for one in &faults {
    for other in faults.iter().filter(|&other| other != one) {
      let tries = "two premises broken at once";
      all.push(on_desk(tries, &[&one[..], other].concat(), &[]));
      all.push(on_desk(tries, one, other));
      let halves = [one, other].map(|fault| fault.split_at(1));
      let [first, second] = [[halves[0].0, halves[1].0], [halves[0].1, halves[1].1]];
      all.push(on_desk(tries, &first.concat(), &second.concat()));
    }
  }
  all
}
