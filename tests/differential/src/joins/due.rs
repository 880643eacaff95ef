//! Every choice of what a join can be refused for, all due at once.

use std::array;

use oracle::{
  APPEND_LEFT, APPEND_RIGHT,
  Call::{self, *},
};

use super::{Lists, Pair};
use crate::{layout::MOST_BYTES, sittings::HARMS};

/// What a join is refused for, in the order in which the numbers come: no desk, a list that
/// breaks a rule, calls that are not apart, a call that is refused alone, no space.
pub const DUE: [u32; 5] = [2, 16, 18, 19, 13];

pub fn all() -> Vec<Pair> {
  PLACES.into_iter().flat_map(choices).collect()
}

/// Where what is refused stands.
#[derive(Debug, Clone, Copy, PartialEq, Eq)]
pub enum Place {
  First,
  Second,
  Across,
}

pub const PLACES: [Place; 3] = [Place::First, Place::Second, Place::Across];

/// The bits of a choice are the places of `DUE`.
pub fn choices(place: Place) -> Vec<Pair> {
  (0..1 << DUE.len()).map(|choice| due(choice, place)).collect()
}

fn due(choice: usize, place: Place) -> Pair {
  let [no_desk, bad_list, not_apart, refused_alone, no_space] =
    array::from_fn(|bit| choice >> bit & 1 == 1);
  // Two long texts, which leave two bytes on a fresh desk, or one.
  let long = |at, more| insert(at, &vec![b'x'; MOST_BYTES / 2 - 1 + more as usize]);
  let mut calls = [vec![long(3, false)], vec![long(9, no_space)]];
  let mut put = |one: Call, other: Option<Call>| {
    let (first, second) = match place {
      Place::First => (0, 0),
      Place::Second => (1, 1),
      Place::Across => (0, 1),
    };
    calls[first].push(one);
    calls[second].extend(other);
  };
  if not_apart {
    put(Remove { start: 5, end: 6 }, Some(Reset { start: 4, end: 6 }));
  }
  if refused_alone {
    // Inside the last character.
    put(Insert { at: 11, text: Vec::new(), setting: APPEND_RIGHT }, None);
  }
  put(insert(1, b"ab"), None);
  let mut lists = Lists::of(&calls[0], &calls[1]);
  if bad_list {
    let bad = if place == Place::Second { &mut lists.second } else { &mut lists.first };
    bad.push(0);
    if place == Place::Across {
      lists.second.push(0);
    }
  }
  let pair = Pair::fresh("refusals at once", "abcdefghijé", lists);
  Pair { harm: no_desk.then_some(HARMS[choice / 2 % HARMS.len()]), ..pair }
}

fn insert(at: u32, text: &[u8]) -> Call {
  Insert { at, text: text.to_vec(), setting: APPEND_LEFT }
}
