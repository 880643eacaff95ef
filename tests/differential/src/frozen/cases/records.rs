//! Records, and what they keep.

use oracle::{
  Desk,
  number::{ACCEPTED, FROZEN, NOT_WELL_FORMED},
};

use super::{Seen, has_marks, is_filing};
use crate::{
  Image,
  layout::*,
  sittings::{
    Action,
    reading::{self, Record},
  },
  well_formed,
};

/// Calls that are filed and withdrawn.
pub fn filed(seen: &Seen, add: &mut impl FnMut(String, bool)) {
  let mut met = |name: &str, is_met: bool| add(name.to_string(), is_met);
  let has_marks = |desk: Option<&Desk>| desk.is_some_and(has_marks);
  let count = |record: &Option<Record>| record.as_ref().map_or(0, |record| record.entries.len());
  let (before, behind) = (count(&seen.record), count(&seen.left_record));
  let is_filed = behind > before;
  let is_first = is_filed && before == 0;
  met("file: the first call, on a desk with marks", is_first && has_marks(seen.desk()));
  met("file: a later call, with marks kept", is_filed && before > 0 && has_marks(kept(seen)));
  let is_done = matches!(seen.action, Action::Withdraw(_)) && seen.answer.number == ACCEPTED;
  let is_edited = kept(seen).is_some_and(|kept| kept.magic_string().has_changed());
  met("withdraw: marks are kept", is_done && has_marks(kept(seen)));
  met("withdraw: marks and edits are kept", is_done && is_edited && has_marks(kept(seen)));
  met("withdraw: the last call, marks are kept", is_done && behind == 0 && has_marks(kept(seen)));
  let answers = |record: &Option<Record>| -> Vec<u8> {
    record.iter().flat_map(|record| &record.entries).map(|entry| entry.answer).collect()
  };
  let mut old = answers(&seen.record);
  if let Action::Withdraw(k) = seen.action
    && is_done
  {
    old.remove(*k as usize - 1);
  }
  let new = answers(&seen.left_record);
  let turned = |from_20: bool| {
    let is_20 = |answer: u8| answer == FROZEN as u8;
    let mut each = old.iter().zip(&new);
    each.any(|(&old, &new)| if from_20 { is_20(old) && new == 0 } else { old == 0 && is_20(new) })
  };
  met("withdraw: a call turns to 20", is_done && turned(false));
  met("withdraw: a call turns from 20", is_done && turned(true));
}

fn kept<'a>(seen: &'a Seen) -> Option<&'a Desk> {
  seen.record.as_ref()?.kept.as_ref()
}

/// Memory that is a record, and that is none, beside a desk.
pub fn lent(seen: &Seen, add: &mut impl FnMut(String, bool)) {
  let (image, memory) = seen.sides.memory();
  let (words, bytes) = (memory.words.lent(), memory.bytes.lent());
  let calls = reading::entries(words, bytes).map(|entries| entries.len());
  let holds = calls.map(|_| memory.kept(&image.source)).is_some_and(|kept| {
    let Image { source, chunks, pieces, store } = &kept;
    well_formed(source, chunks, pieces, store)
  });
  let is_desk = seen.desk().is_some();
  let is_none = is_desk && seen.answer.number == NOT_WELL_FORMED;
  let is_short = [words.len(), bytes.len()] == WITHOUT_KEPT;
  let no_call = words.first() == Some(&0);
  let is_other = seen.history.is_other(&image.source) && calls.is_some_and(|calls| calls > 0);
  for (name, is_of) in [
    ("file", is_filing(seen)),
    ("withdraw", matches!(seen.action, Action::Withdraw(_))),
    ("freeze", matches!(seen.action, Action::Freeze { .. })),
  ] {
    let mut met = |what: &str, is_met: bool| add(format!("{name}: {what}"), is_of && is_met);
    met("2 for a desk that is none", !is_desk);
    let is_harmed = is_none && calls.is_some_and(|calls| calls > 0);
    met("2 for a kept desk that is none", is_harmed && !is_other);
    met("2 over another source", is_harmed && is_other);
    met("a record of another source", is_other && holds && is_desk);
    met("without calls, no kept desk", is_desk && calls == Some(0) && !holds && !is_none);
    met("2 for a record without a kept desk", is_none && is_short && !no_call);
    met("2 for an empty record without a kept desk", is_none && is_short && no_call);
  }
}
