//! A paper from its start to its end or to its first difference.

use oracle::Call;

use crate::{Core, Made, Paper, Tally, step::Both};

/// Where the two sides part: at the call with this index, or before the first.
#[derive(Debug, Clone, PartialEq, Eq)]
pub struct Difference {
  pub call: Option<usize>,
  pub what: String,
}

pub fn run(core: &mut impl Core, paper: &Paper, tally: &mut Tally) -> Result<(), Difference> {
  let mut both = Both::start(paper.sizes, &paper.start);
  both.check_start(core).map_err(|what| Difference { call: None, what })?;
  if paper.at_once > 1 {
    return run_lists(core, paper, &mut both, tally);
  }
  let start = paper.each_from_start.then(|| both.clone());
  for (index, made) in paper.calls.iter().enumerate() {
    if !core.has(&made.call) {
      tally.passed_over += 1;
      continue;
    }
    if let Some(start) = &start {
      both.clone_from(start);
    }
    let met = both.step(core, made);
    tally.add(met.map_err(|what| Difference { call: Some(index), what })?);
  }
  tally.papers += 1;
  Ok(())
}

/// The same with edits in lists: as many at once as the paper says, and an
/// opening alone.
fn run_lists(
  core: &mut impl Core,
  paper: &Paper,
  both: &mut Both,
  tally: &mut Tally,
) -> Result<(), Difference> {
  let mut done = 0;
  while done < paper.calls.len() {
    let list = next_list(&paper.calls[done..], paper.at_once);
    let met = match list {
      [open] if is_open(open) => {
        both.step(core, open).map(|met| vec![met]).map_err(|what| (0, what))
      }
      _ => both.list(core, list),
    };
    let met = met.map_err(|(place, what)| Difference { call: Some(done + place), what })?;
    met.into_iter().for_each(|met| tally.add(met));
    tally.lists += 1;
    done += list.len();
  }
  tally.papers += 1;
  Ok(())
}

/// The front of these calls that is made at once.
fn next_list(calls: &[Made], most: usize) -> &[Made] {
  let most = most.min(calls.len());
  let edits = calls[..most].iter().take_while(|made| !is_open(made)).count();
  &calls[..edits.max(1)]
}

fn is_open(made: &Made) -> bool {
  matches!(made.call, Call::Open { .. })
}
