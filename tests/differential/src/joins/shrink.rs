//! A smaller pair on which the sides still differ: calls before the join and records of
//! the lists are dropped, texts are shortened, and the desk is made a fresh one.

use super::{Lists, Pair, Tally, run::run};
use crate::{
  Core,
  any_order::Start,
  drop_rows::drop_rows,
  sheets::fields::{DROPS, Drop, Record, join_list, split_list},
};

/// Pairs that are tried at most.
const MOST_TRIES: usize = 300;

/// The smallest pair found, with its difference. `pair` must have one.
pub fn shrink<C: Core + Clone>(core: &C, pair: Pair, found: String) -> (Pair, String) {
  let mut shrinker = Shrinker { core, tries: 0, pair, found };
  shrinker.freshen();
  loop {
    let before = size(&shrinker.pair);
    shrinker.drop_calls();
    shrinker.drop_records();
    shrinker.shorten_texts();
    if size(&shrinker.pair) == before {
      return (shrinker.pair, shrinker.found);
    }
  }
}

struct Shrinker<'a, C> {
  core: &'a C,
  tries: usize,
  pair: Pair,
  found: String,
}

impl<C: Core + Clone> Shrinker<'_, C> {
  /// Takes the pair if the sides still differ.
  fn take(&mut self, pair: Pair) -> bool {
    self.tries += 1;
    if self.tries > MOST_TRIES {
      return false;
    }
    let Err(found) = run(&mut self.core.clone(), &pair, &mut Tally::default()) else {
      return false;
    };
    (self.pair, self.found) = (pair, found);
    true
  }

  /// Takes the lists of these records, and what stands behind them.
  fn take_lists(&mut self, records: &[Vec<Record>; 2], behind: [&[u8]; 2]) -> bool {
    let [first, second] = [0, 1].map(|place| [&join_list(&records[place]), behind[place]].concat());
    let pair = Pair { lists: Lists { first, second }, ..self.pair.clone() };
    size(&pair) < size(&self.pair) && self.take(pair)
  }

  fn freshen(&mut self) {
    let source = self.pair.start.desk().source.into_bytes();
    let start = Start::Opened { source, calls: Vec::new() };
    self.take(Pair { start, ..self.pair.clone() });
  }

  fn drop_calls(&mut self) {
    let len = |shrinker: &Self| shrinker.pair.start.calls().len();
    drop_rows(self, len, |shrinker, row| {
      let mut pair = shrinker.pair.clone();
      if let Start::Opened { calls, .. } = &mut pair.start {
        calls.drain(row);
      }
      shrinker.take(pair)
    });
  }

  /// Of the first list, and then of the second.
  fn drop_records(&mut self) {
    for place in [0, 1] {
      let len = |shrinker: &Self| split_list(shrinker.pair.lists.slices()[place]).0.len();
      drop_rows(self, len, |shrinker, row| {
        let lists = shrinker.pair.lists.clone();
        let (mut records, behind) = split(&lists);
        records[place].drain(row);
        shrinker.take_lists(&records, behind)
      });
    }
  }

  fn shorten_texts(&mut self) {
    for place in [0, 1] {
      for record in 0..split_list(self.pair.lists.slices()[place]).0.len() {
        while DROPS.into_iter().any(|drop| self.shorten_text(place, record, drop)) {}
      }
    }
  }

  fn shorten_text(&mut self, place: usize, record: usize, drop: Drop) -> bool {
    let lists = self.pair.lists.clone();
    let (mut records, behind) = split(&lists);
    records[place][record].shorten(drop);
    self.take_lists(&records, behind)
  }
}

/// The whole records at the front of each list, and what stands behind them.
fn split(lists: &Lists) -> ([Vec<Record>; 2], [&[u8]; 2]) {
  let [(first, behind), (second, behind_second)] = lists.slices().map(split_list);
  ([first, second], [behind, behind_second])
}

/// Calls before the join, and bytes of the lists.
fn size(pair: &Pair) -> usize {
  pair.start.calls().len() + pair.lists.first.len() + pair.lists.second.len()
}
