//! What an action could be refused for, whatever comes first.

use std::collections::BTreeSet;

use oracle::{Desk, DeskData, Limits, apply, frozen, number::*};

use crate::sittings::Seen;

impl Seen<'_> {
  /// Whether a range with marks is called for: start and end may be turned, and a trim has
  /// all of the desk.
  pub fn reaches_frozen(&self) -> bool {
    let (Some(desk), Some(call)) = (self.desk(), &self.call) else { return false };
    let marks = desk.marks();
    match call.positions()[..] {
      _ if frozen::is_of_whole_desk(call) => marks.any(),
      [start, end] => marks.any_in(start.min(end), start.max(end)),
      _ => false,
    }
  }

  /// Everything that the call could be refused for, whatever comes first: on the desk, on one
  /// without marks, on one without limits.
  pub fn due(&self) -> BTreeSet<u32> {
    let (Some(desk), Some(call)) = (self.desk(), &self.call) else { return BTreeSet::new() };
    let data = desk.data();
    let bare = bare(&data);
    let on = |limits, data: &DeskData| apply(&mut Desk::build(limits, data), call).number;
    let [full, none] = [Limits::FULL, Limits::NONE];
    let mut due = BTreeSet::from([on(full, &data), on(full, &bare), on(none, &data)]);
    due.extend(self.reaches_frozen().then_some(FROZEN));
    due
  }
}

/// The desk without marks.
fn bare(desk: &DeskData) -> DeskData {
  let mut bare = desk.clone();
  bare.chunks.iter_mut().for_each(|chunk| chunk.frozen = false);
  bare
}
