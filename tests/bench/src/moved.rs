//! How many edits of a list lay the desk out anew, seen from outside: an edit on
//! the lent tables themselves puts one text and one run of pieces at a new place at
//! most, above all others, and leaves every row of chunks where it is. An edit that
//! lays everything out where it was is not seen.

use std::collections::HashSet;

use differential::{Image, Unseen, cores::List, layout::*};
use oracle::Call;

/// The desk behind each front of the list, and behind one edit more.
pub fn laid_anew(image: &Image, calls: &[Call]) -> usize {
  let mut before = Places::of(image);
  let mut anew = 0;
  for made in 1..=calls.len() {
    let mut image = image.clone();
    let list = List::new(&calls[..made], &Unseen::PLAIN);
    image.lend().inner_paper(&list, &mut vec![0; made]);
    let after = Places::of(&image);
    anew += after.elsewhere(&before) as usize;
    before = after;
  }
  anew
}

/// Where the texts, the runs and the chunks of a desk lie.
struct Places {
  texts: HashSet<(u32, u32)>,
  runs: HashSet<(u32, u32)>,
  /// Where the span of each row begins.
  starts: Vec<u32>,
}

impl Places {
  fn of(image: &Image) -> Self {
    let rows = 0..=image.count();
    let mut runs: HashSet<_> = rows
      .clone()
      .flat_map(|row| [(row, INTRO_AT, INTRO_N), (row, OUTRO_AT, OUTRO_N)])
      .map(|(row, at, n)| (image.word(row, at), image.word(row, n)))
      .collect();
    runs.retain(|&(_, n)| n > 0);
    let pieces = runs.iter().flat_map(|&(at, n)| at as usize..(at + n) as usize);
    let replaced = rows.clone().skip(1).filter(|&row| image.word(row, TEXT_AT) != NONE);
    let mut texts: HashSet<_> = pieces
      .map(|row| (image.piece(row, AT), image.piece(row, N)))
      .chain(replaced.map(|row| (image.word(row, TEXT_AT), image.word(row, TEXT_N))))
      .collect();
    texts.retain(|&(_, n)| n > 0);
    Self { texts, runs, starts: rows.skip(1).map(|row| image.word(row, START)).collect() }
  }

  /// Whether the desk lies otherwise than an edit on the lent tables leaves it.
  fn elsewhere(&self, before: &Self) -> bool {
    !on_top(&self.texts, &before.texts)
      || !on_top(&self.runs, &before.runs)
      || !self.starts.starts_with(&before.starts)
  }
}

/// Whether at most one block lies at a new place, above all that were there.
fn on_top(after: &HashSet<(u32, u32)>, before: &HashSet<(u32, u32)>) -> bool {
  let top = before.iter().map(|&(at, n)| at + n).max().unwrap_or(0);
  let mut new = after.difference(before);
  new.next().is_none_or(|&(at, _)| at >= top) && new.next().is_none()
}
