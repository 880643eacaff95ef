//! One sitting: its list run in each order, and all that must be the same.

use oracle::{Call, Desk, DeskData, Limits, apply};

use super::{
  Sitting, Tally,
  later::{Later, Seen},
};
use crate::{Answer, Core, Image, Unseen};

/// The order in which something is seen that the others do not have, and what.
#[derive(Debug, Clone)]
pub struct Difference {
  pub order: Vec<usize>,
  pub what: String,
}

/// What an order of the list leaves: the desk, its text, what later calls show,
/// and the desk behind them.
struct Outcome {
  desk: DeskData,
  text: Seen,
  later: Vec<Seen>,
  end: DeskData,
}

/// Runs each order and compares what it leaves with what the oracle's desk is and
/// shows behind the list's own order: so all orders leave the same.
pub fn run(core: &mut impl Core, sitting: &Sitting, tally: &mut Tally) -> Result<(), Difference> {
  let mut calls = sitting.start.calls().iter().chain(&sitting.list);
  if !calls.all(|call| core.has(call)) {
    tally.passed_over += 1;
    return Ok(());
  }
  let expected = expected(sitting);
  let mut cuts = Vec::new();
  for (number, order) in sitting.orders.iter().enumerate() {
    let run = run_order(core, sitting, order, number, &expected);
    let Some(made) = run.map_err(|what| Difference { order: order.clone(), what })? else {
      tally.passed_over += 1;
      return Ok(());
    };
    cuts.push(made);
  }
  tally.add(sitting, &cuts, expected.later.iter().map(|seen| seen.answer.number));
  Ok(())
}

/// By the oracle, in the list's own order.
fn expected(sitting: &Sitting) -> Outcome {
  let mut desk = Desk::build(Limits::FULL, &sitting.start.desk());
  sitting.list.iter().for_each(|call| {
    apply(&mut desk, call);
  });
  let left = desk.data();
  let text = Later::text(sitting.seed).expected(&mut desk);
  let later = sitting.later.iter().map(|later| later.expected(&mut desk)).collect();
  Outcome { desk: left, text, later, end: desk.data() }
}

/// How many cuts each edit of a list made in an order: as many chunks as it brought in.
pub type Cuts = Vec<u32>;

/// The cuts, none where the core has not all of the later calls; or what differs.
fn run_order(
  core: &mut impl Core,
  sitting: &Sitting,
  order: &[usize],
  number: usize,
  expected: &Outcome,
) -> Result<Option<Cuts>, String> {
  let mut image = sitting.start.memory(core, sitting.seed.wrapping_add(number as u64))?;
  let mut cuts = vec![0; sitting.list.len()];
  for &place in order {
    let call = &sitting.list[place];
    let before = image.count() as u32;
    let answer = make(core, &mut image, call);
    cuts[place] = (image.count() as u32).wrapping_sub(before);
    let accepted = Answer { number: 0, value: cuts[place] };
    if answer != accepted {
      return Err(format!("{call} gives {answer:?}, not {accepted:?}"));
    }
  }
  image.check_desk(&expected.desk)?;
  let Some(text) = Later::text(sitting.seed).make(core, &mut image) else { return Ok(None) };
  text.same_as(&expected.text).map_err(|what| format!("the text: {what}"))?;
  for (later, expected) in sitting.later.iter().zip(&expected.later) {
    let Some(seen) = later.make(core, &mut image) else { return Ok(None) };
    seen.same_as(expected).map_err(|what| format!("later, {}: {what}", later.asked))?;
  }
  image.check_desk(&expected.end).map_err(|what| format!("behind the later calls, {what}"))?;
  Ok(Some(cuts))
}

/// Makes an edit, which fills no buffer.
fn make(core: &mut impl Core, image: &mut Image, call: &Call) -> Answer {
  core.call(&mut image.lend(), call, &Unseen::PLAIN, &mut [])
}
