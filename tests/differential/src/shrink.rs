//! A smaller paper that still differs: calls are dropped, then pieces, replacements
//! and marks of a desk made by hand.

use oracle::DeskData;

use crate::{Core, Paper, Start, Tally, drop_rows::drop_rows, run::Difference, run::run};

/// Papers that are tried at most.
const MOST_TRIES: usize = 5_000;

/// The smallest paper found, with its difference. `paper` must have one.
pub fn shrink<C: Core + Clone>(core: &C, paper: Paper, found: Difference) -> (Paper, Difference) {
  let mut shrinker = Shrinker { core, tries: 0, paper, found };
  shrinker.cut_behind();
  loop {
    let before = (shrinker.paper.calls.len(), size(&shrinker.paper.start));
    shrinker.drop_calls();
    shrinker.simplify_desk();
    if before == (shrinker.paper.calls.len(), size(&shrinker.paper.start)) {
      return (shrinker.paper, shrinker.found);
    }
  }
}

struct Shrinker<'a, C> {
  core: &'a C,
  tries: usize,
  paper: Paper,
  found: Difference,
}

impl<C: Core + Clone> Shrinker<'_, C> {
  /// Takes the paper if it still differs.
  fn take(&mut self, paper: Paper) -> bool {
    self.tries += 1;
    if self.tries > MOST_TRIES {
      return false;
    }
    let Err(found) = run(&mut self.core.clone(), &paper, &mut Tally::default()) else {
      return false;
    };
    (self.paper, self.found) = (paper, found);
    self.cut_behind();
    true
  }

  /// Calls behind the difference say nothing.
  fn cut_behind(&mut self) {
    self.paper.calls.truncate(self.found.call.map_or(0, |call| call + 1));
  }

  fn drop_calls(&mut self) {
    let len = |shrinker: &Self| shrinker.paper.calls.len();
    drop_rows(self, len, |shrinker, row| {
      let mut paper = shrinker.paper.clone();
      paper.calls.drain(row);
      shrinker.take(paper)
    });
  }

  fn simplify_desk(&mut self) {
    let Start::Desk { desk, seed } = self.paper.start.clone() else { return };
    simpler(desk, |desk| {
      let start = Start::Desk { desk: desk.clone(), seed };
      self.take(Paper { start, ..self.paper.clone() })
    });
  }
}

/// Drops parts of the desk one by one, as long as `take` takes the desk without them.
pub fn simpler(mut desk: DeskData, mut take: impl FnMut(&DeskData) -> bool) {
  for part in 0..5 * desk.chunks.len() + 3 {
    let mut smaller = desk.clone();
    if drop_part(&mut smaller, part) && take(&smaller) {
      desk = smaller;
    }
  }
}

/// Drops a list, or a replacement, or a mark, or puts the chunks in source order. False
/// where that changes nothing.
fn drop_part(desk: &mut DeskData, part: usize) -> bool {
  let before = desk.clone();
  match part {
    0 => desk.head.clear(),
    1 => desk.tail.clear(),
    2 => desk.chunks.sort_by_key(|chunk| chunk.start),
    _ => {
      let chunk = &mut desk.chunks[(part - 3) / 5];
      match (part - 3) % 5 {
        0 => chunk.intro.clear(),
        1 => chunk.outro.clear(),
        2 => chunk.edited_content = None,
        3 => chunk.frozen = false,
        _ => {
          chunk.intro.pop();
          chunk.outro.pop();
        }
      }
    }
  }
  *desk != before
}

/// What simplifying makes smaller.
fn size(start: &Start) -> usize {
  let Start::Desk { desk, .. } = start else { return 0 };
  let chunks = desk.chunks.iter();
  let chunks = chunks.map(|chunk| {
    let [replaced, frozen] = [chunk.edited_content.is_some(), chunk.frozen].map(usize::from);
    chunk.intro.len() + chunk.outro.len() + replaced + frozen
  });
  let turns = desk.chunks.windows(2).filter(|pair| pair[0].start > pair[1].start).count();
  desk.head.len() + desk.tail.len() + chunks.sum::<usize>() + turns
}
