//! A smaller sitting on which the sides still differ: actions are dropped, then calls of
//! the record at the start; texts are shortened, the desk and the kept one are made fresh,
//! or simpler, and there is no second record.

use super::{Action, Kept, Sitting, Written, fresh, run::run};
use crate::{
  Core, Start,
  drop_rows::drop_rows,
  run::Difference,
  sheets::fields::{DROPS, Drop, Record, join_list, split_list},
  shrink::simpler,
};

/// Sittings that are tried at most.
const MOST_TRIES: usize = 1_000;

/// The smallest sitting found, with its difference. `sitting` must have one.
pub fn shrink<C: Core + Clone>(
  core: &C,
  sitting: Sitting,
  found: Difference,
) -> (Sitting, Difference) {
  let mut shrinker = Shrinker { core, tries: 0, sitting, found };
  shrinker.cut_behind();
  shrinker.freshen();
  loop {
    let before = size(&shrinker.sitting);
    shrinker.drop_actions();
    shrinker.drop_calls();
    shrinker.shorten_texts();
    shrinker.simplify_desk();
    if size(&shrinker.sitting) == before {
      return (shrinker.sitting, shrinker.found);
    }
  }
}

struct Shrinker<'a, C> {
  core: &'a C,
  tries: usize,
  sitting: Sitting,
  found: Difference,
}

impl<C: Core + Clone> Shrinker<'_, C> {
  /// Takes the sitting if the sides still differ.
  fn take(&mut self, sitting: Sitting) -> bool {
    self.tries += 1;
    if self.tries > MOST_TRIES {
      return false;
    }
    let Err(found) = run(&mut self.core.clone(), &sitting, &mut ()) else {
      return false;
    };
    (self.sitting, self.found) = (sitting, found);
    self.cut_behind();
    true
  }

  /// Actions behind the difference say nothing.
  fn cut_behind(&mut self) {
    self.sitting.actions.truncate(self.found.call.map_or(0, |action| action + 1));
  }

  fn freshen(&mut self) {
    let Start::Desk { desk, seed } = &self.sitting.start else { return };
    let start = Start::Desk { desk: fresh(&desk.source), seed: *seed };
    self.take(Sitting { start, ..self.sitting.clone() });
    let record = Written { kept: Kept::Fresh, ..self.sitting.record.clone() };
    self.take(Sitting { record, ..self.sitting.clone() });
    self.take(Sitting { other_marks: None, ..self.sitting.clone() });
  }

  fn simplify_desk(&mut self) {
    let Start::Desk { desk, seed } = self.sitting.start.clone() else { return };
    simpler(desk, |desk| {
      let start = Start::Desk { desk: desk.clone(), seed };
      self.take(Sitting { start, ..self.sitting.clone() })
    });
  }

  fn drop_actions(&mut self) {
    let len = |shrinker: &Self| shrinker.sitting.actions.len();
    drop_rows(self, len, |shrinker, row| {
      let mut sitting = shrinker.sitting.clone();
      let dropped = sitting.actions.drain(row);
      let filed = dropped.filter(|action| matches!(action, Action::File(_))).count();
      let lowered = Sitting { actions: lowered(&sitting.actions, filed), ..sitting.clone() };
      shrinker.take(sitting) || filed > 0 && shrinker.take(lowered)
    });
  }

  fn drop_calls(&mut self) {
    let len = |shrinker: &Self| calls(&shrinker.sitting.record).len();
    drop_rows(self, len, |shrinker, row| {
      let mut left = calls(&shrinker.sitting.record);
      let dropped = left.drain(row).count();
      let record = written(&shrinker.sitting.record, &left);
      let sitting = Sitting { record, ..shrinker.sitting.clone() };
      let lowered = Sitting { actions: lowered(&sitting.actions, dropped), ..sitting.clone() };
      shrinker.take(sitting) || shrinker.take(lowered)
    });
  }

  fn shorten_texts(&mut self) {
    let texts = calls(&self.sitting.record).len() + self.sitting.actions.len();
    for place in 0..texts {
      while DROPS.into_iter().any(|drop| self.shorten_text(place, drop)) {}
    }
  }

  /// The texts of the record at the start come first, then those of the actions.
  fn shorten_text(&mut self, place: usize, drop: Drop) -> bool {
    let mut sitting = self.sitting.clone();
    let mut filed = calls(&sitting.record);
    if let Some(call) = filed.get_mut(place) {
      call.shorten(drop);
      sitting.record = written(&sitting.record, &filed);
    } else if let Some(Action::File(bytes)) = sitting.actions.get_mut(place - filed.len()) {
      let (mut calls, rest) = split_list(bytes);
      calls.iter_mut().for_each(|call| call.shorten(drop));
      *bytes = [&join_list(&calls), rest].concat();
    }
    size(&sitting) < size(&self.sitting) && self.take(sitting)
  }
}

/// Actions, and bytes of filed calls.
fn size(sitting: &Sitting) -> usize {
  let filed = |action: &Action| if let Action::File(bytes) = action { bytes.len() } else { 0 };
  let actions = sitting.actions.iter().map(|action| 1 + filed(action));
  sitting.record.calls.len() + actions.sum::<usize>()
}

/// The calls of a record that is whole calls; of others none.
fn calls(record: &Written) -> Vec<Record> {
  let is_whole = record.used as usize == record.calls.len() && record.answers.is_empty();
  let (calls, rest) = split_list(&record.calls);
  if is_whole && rest.is_empty() { calls } else { Vec::new() }
}

/// The record with these calls.
fn written(record: &Written, calls: &[Record]) -> Written {
  let calls = join_list(calls);
  Written { used: calls.len() as u32, calls, ..record.clone() }
}

/// The actions with the number of each call that they name lowered by so much, where it is
/// above.
fn lowered(actions: &[Action], by: usize) -> Vec<Action> {
  let mut lowered = actions.to_vec();
  for action in &mut lowered {
    if let Action::Withdraw(k) | Action::Show { k, .. } | Action::SetMarks { k, .. } = action
      && *k as usize > by
    {
      *k -= by as u32;
    }
  }
  lowered
}
