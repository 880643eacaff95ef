//! Lists with a rule of a sheet's record broken in each place, beside lists that keep the
//! rules and beside empty ones.

use oracle::{
  APPEND_LEFT,
  Call::{self, *},
  PREPEND_RIGHT,
};

use super::{Lists, Pair, lists::list};
use crate::sheets::broken::{every_kind, kinds_and_lengths, lists};

pub fn all() -> Vec<Pair> {
  let kinds = kinds_and_lengths().map(|sheet| sheet.list());
  let broken = lists(&joined()).into_iter().chain(kinds).chain(more());
  broken.enumerate().flat_map(|(place, list)| beside(place, list)).collect()
}

const SOURCE: &str = "abcdefghij";

/// Calls that may be joined, and that are refused with 18 or 19 where some bits are turned.
fn joined() -> [Call; 3] {
  [
    Insert { at: 1, text: b"x".to_vec(), setting: APPEND_LEFT },
    UpdateWith { start: 1, end: 4, overwrite: 1, text: "é".into() },
    Relocate { start: 4, end: 6, to: 9 },
  ]
}

/// A whole sheet, a list twice, a record of each kind without its last byte, and with one
/// more.
fn more() -> Vec<Vec<u8>> {
  let mut all = vec![
    [b"\x01\0\x03abc", &list(&joined())[..]].concat(),
    list(&joined()).repeat(2),
    vec![0],
    vec![0, 0],
    vec![0, 1, 4],
  ];
  for call in every_kind() {
    let record = list(&[call]);
    all.extend([record[..record.len() - 1].to_vec(), [&record[..], b"\0"].concat()]);
  }
  all
}

/// The list as the first one or as the second: beside one that may be joined with it or an
/// empty one, and some beside themselves too.
fn beside(place: usize, handed: Vec<u8>) -> Vec<Pair> {
  let good = list(&[Insert { at: 9, text: b"y".to_vec(), setting: PREPEND_RIGHT }]);
  let mut others = vec![if place.is_multiple_of(3) { Vec::new() } else { good }];
  if place.is_multiple_of(8) {
    others.push(handed.clone());
  }
  let pair = |second| {
    let lists = Lists { first: handed.clone(), second };
    let lists = if place.is_multiple_of(2) { lists.turned() } else { lists };
    Pair::fresh("lists that break a rule", SOURCE, lists)
  };
  others.into_iter().map(pair).collect()
}
