//! What all shrinking does first: parts of a list are dropped.

use std::ops::Range;

/// Drops rows of parts, long ones first. `len` is how many there now are; `without`
/// tries to do without a row of them, and tells whether it could.
pub fn drop_rows<S>(
  shrinker: &mut S,
  len: impl Fn(&S) -> usize,
  mut without: impl FnMut(&mut S, Range<usize>) -> bool,
) {
  let mut row = len(shrinker);
  while row > 0 {
    let mut at = 0;
    while at < len(shrinker) {
      let end = len(shrinker).min(at + row);
      if !without(shrinker, at..end) {
        at += row;
      }
    }
    row /= 2;
  }
}
