//! A pair joined on both sides, in both orders, and everything that must agree.

use oracle::{Answer as Expected, random::Random};

use super::{Lists, Pair, Tally, reading};
use crate::{
  Core,
  sittings::Cells,
  step::{Both, check_answer},
};

/// The order in which a core gets the lists.
#[derive(Debug, Clone, Copy, PartialEq, Eq)]
pub enum Order {
  FirstSecond,
  SecondFirst,
}

/// Joins the lists in both orders, each on other memory of the same desk: number, value
/// and desk are those that the reading gives for the first list and then the second. What
/// differs, if anything does.
pub fn run(core: &mut impl Core, pair: &Pair, tally: &mut Tally) -> Result<(), String> {
  if !pair.start.calls().iter().all(|call| core.has(call)) {
    tally.passed_over += 1;
    return Ok(());
  }
  let random = &mut Random::new(pair.seed);
  let mut expected = None;
  for order in [Order::FirstSecond, Order::SecondFirst] {
    let mut both = Both::of_any(pair.memory(core, random.number())?);
    let joined = join(core, &mut both, &pair.lists, order, random);
    expected = joined.map_err(|what| match order {
      Order::FirstSecond => what,
      Order::SecondFirst => format!("the second list first: {what}"),
    })?;
  }
  match expected {
    Some(expected) => tally.add(pair, &expected),
    None => tally.passed_over += 1,
  }
  Ok(())
}

/// Joins the lists on both sides: the core gets them in this order, the reading the first
/// one first. What the reading gives, none where the core joins no lists; or what differs.
pub fn join(
  core: &mut impl Core,
  both: &mut Both,
  lists: &Lists,
  order: Order,
  random: &mut Random,
) -> Result<Option<Expected>, String> {
  both.begin();
  let lent = lists.slices().map(|list| Cells::of(list, random, |random| random.number() as u8));
  let before = lent.clone();
  let [first, second] = match order {
    Order::FirstSecond => [&lent[0], &lent[1]],
    Order::SecondFirst => [&lent[1], &lent[0]],
  };
  let answer = core.join(&mut both.image.lend(), first.lent(), second.lent());
  let Some(answer) = answer else { return Ok(None) };
  let expected = reading::join(both.desk.as_mut(), lists.slices());

  if lent != before {
    return Err("a list changed".to_string());
  }
  check_answer(answer, &expected)?;
  both.end(reading::keeps_every_byte(&expected, lists.slices()))?;
  Ok(Some(expected))
}
