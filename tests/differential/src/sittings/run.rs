//! A sitting from its start to its end or to its first difference.

use oracle::random::Random;

use super::{Action, Filing, Sides, Sitting, Withdrawal};
use crate::{
  Core,
  cores::{Noted, Noting},
  run::Difference,
};

/// Counts what sittings have.
pub trait Count {
  /// Sees what is about to be done, beside the second record too, if there is one.
  fn before(&mut self, _sides: &Sides, _second: Option<&Sides>, _action: &Action) {}

  /// What was done, on both sides alike.
  fn filed(&mut self, _filing: Filing) {}
  fn withdrawn(&mut self, _withdrawal: Withdrawal) {}
  fn made(&mut self) {}

  /// A whole sitting was compared, or it has calls that the core does not have.
  fn whole(&mut self, sitting: &Sitting);
  fn passed_over(&mut self);
}

/// Counts nothing.
impl Count for () {
  fn whole(&mut self, _: &Sitting) {}
  fn passed_over(&mut self) {}
}

pub fn run<C: Core + Clone>(
  core: &mut C,
  sitting: &Sitting,
  tally: &mut impl Count,
) -> Result<(), Difference> {
  let random = &mut Random::new(sitting.seed);
  let (image, memory) = sitting.memory(random);
  let mut second = sitting.other_marks.as_ref().map(|marks| {
    let sides = Sides::of(image.clone(), memory.clone().with_marks(marks));
    Second { core: core.clone(), sides }
  });
  let mut sides = Sides::of(image, memory);
  sides.check_desk(core).map_err(|what| Difference { call: None, what })?;
  for (index, action) in sitting.actions.iter().enumerate() {
    tally.before(&sides, second.as_ref().map(|second| &second.sides), action);
    let seed = random.number();
    let mut noting = Noting::new(core);
    let acted = act(&mut noting, &mut sides, action, &mut Random::new(seed), tally);
    let noted = noting.noted;
    let acted = acted.and_then(|is_done| {
      let second = second.as_mut().filter(|_| is_done && action.is_members());
      second.map_or(Ok(()), |second| second.act(action, seed, &sides, &noted)).map(|()| is_done)
    });
    if !acted.map_err(|what| Difference { call: Some(index), what })? {
      tally.passed_over();
      return Ok(());
    }
  }
  tally.whole(sitting);
  Ok(())
}

/// The second record of a sitting and the desk beside it, on a core that is as the other one
/// was at the start.
struct Second<C> {
  core: C,
  sides: Sides,
}

impl<C: Core> Second<C> {
  /// Does what was done beside the first record, where this was noted. What differs, if
  /// anything does.
  fn act(
    &mut self,
    action: &Action,
    seed: u64,
    first: &Sides,
    noted: &[Noted],
  ) -> Result<(), String> {
    let mut noting = Noting::new(&mut self.core);
    let done = act(&mut noting, &mut self.sides, action, &mut Random::new(seed), &mut ());
    let is_same = noting.noted == noted;
    let done = done.and_then(|_| match is_same {
      true => first.same_but_marks(&self.sides),
      false => Err("another answer, or other bytes in the buffer".to_string()),
    });
    done.map_err(|what| format!("beside the second record: {what}"))
  }
}

/// False where the core has no such call.
fn act(
  core: &mut impl Core,
  sides: &mut Sides,
  action: &Action,
  random: &mut Random,
  tally: &mut impl Count,
) -> Result<bool, String> {
  Ok(match action {
    Action::File(call) => {
      let filing = sides.file(core, call, random)?;
      filing.map(|filing| tally.filed(filing)).is_some()
    }
    Action::Withdraw(k) => {
      let withdrawal = sides.withdraw(core, *k)?;
      withdrawal.map(|withdrawal| tally.withdrawn(withdrawal)).is_some()
    }
    Action::Freeze { start, end } => sides.freeze(core, *start, *end)?.is_some(),
    Action::Join(lists) => sides.join(core, lists, random)?.is_some(),
    Action::RunSheet { sheet, room } => sides.run_sheet(core, sheet, *room, random)?.is_some(),
    Action::WellFormed => {
      sides.check_desk(core)?;
      true
    }
    &Action::Show { reader, k, room } => sides.show_entry(core, reader, k, room, random)?.is_some(),
    Action::SetMarks { k, marks } => sides.set_marks(core, *k, *marks)?.is_some(),
    Action::Total => sides.total(core)?.is_some(),
    Action::Make(made) if core.has(&made.call) => {
      sides.make(core, made)?;
      tally.made();
      true
    }
    Action::Make(_) => false,
  })
}
