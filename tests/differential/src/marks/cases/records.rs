//! Records that are none, and what is not looked at.

use oracle::number::*;

use super::{FUNCTIONS, Seen, function};
use crate::{
  Image,
  layout::*,
  sittings::reading::{self, MOST_MARKS},
  well_formed,
};

pub fn add(seen: &Seen, add: &mut impl FnMut(String, bool)) {
  let (image, memory) = seen.sides.memory();
  let lengths = [memory.words.lent().len(), memory.bytes.lent().len()];
  let calls = whole_calls(seen);
  let marks = memory.marks();
  let (beside, behind) = marks.split_at(calls.unwrap_or(0).min(marks.len()));
  let too_high = |marks: &u8| *marks > MOST_MARKS;
  let high: Vec<usize> = (0..beside.len()).filter(|&place| too_high(&beside[place])).collect();
  let is_whole = lengths == [RECORD_WORDS_LEN, RECORD_BYTES_LEN];
  let keeps_desk = is_whole && {
    let Image { source, chunks, pieces, store } = &memory.kept(&image.source);
    well_formed(source, chunks, pieces, store)
  };
  let is_source = str::from_utf8(&image.source).is_ok() && image.source.len() <= MOST_SOURCE;
  let is_none = seen.answer.number == NOT_WELL_FORMED;
  let has_calls = calls.is_some_and(|calls| calls > 0);
  let is_other = seen.history.is_other(&image.source);
  for (name, lends_desk) in FUNCTIONS {
    let is_of = function(seen.action) == Some(name) && (seen.desk().is_some() || !lends_desk);
    let mut met = |what: &str, is_met: bool| add(format!("{name}: {what}"), is_of && is_met);
    let by_marks = is_none && keeps_desk;
    met("2 for the first marks", by_marks && high == [0] && beside.len() > 1);
    met("2 for the last marks", by_marks && high == [beside.len().max(2) - 1]);
    met("2 for the only marks", by_marks && high == [0] && beside.len() == 1);
    let is_between = high.first().is_some_and(|&place| 0 < place && place + 1 < beside.len());
    met("2 for marks between", by_marks && is_between && high.len() == 1);
    met("2 for the last of 200", by_marks && high == [199]);
    met("2 for 101", by_marks && high.len() == 1 && beside[high[0]] == 101);
    met("2 for 255", by_marks && high.len() == 1 && beside[high[0]] == 255);
    let is_free = !is_none && behind.first().is_some_and(too_high);
    met("high marks behind the last", is_free && has_calls);
    met("high marks without calls", is_free && calls == Some(0));
    for (what, before) in [("a kept desk", WITHOUT_KEPT), ("marks", WITHOUT_MARKS)] {
      let is_short = is_none && lengths == before;
      let is_empty = memory.words.lent().first() == Some(&0);
      met(&format!("2 for a record without {what}"), is_short && !is_empty);
      met(&format!("2 for an empty record without {what}"), is_short && is_empty);
    }
    met("2 for used bytes", is_none && is_whole && calls.is_none() && keeps_desk);
    let is_harmed = is_none && has_calls && high.is_empty() && is_whole && !keeps_desk;
    met("2 for a kept desk", is_harmed && !is_other && is_source);
    met("2 over another source", is_harmed && is_other);
    met("over another source", !is_none && has_calls && is_other);
    met("no kept desk, without calls", !is_none && calls == Some(0) && !keeps_desk);
    if !lends_desk {
      met("2 over a source that is none", is_harmed && !is_source);
      met("a source that is none, without calls", !is_none && calls == Some(0) && !is_source);
      met("no desk", !is_none && has_calls && seen.desk().is_none());
    }
  }
}

/// How many calls the used bytes are, in memory of a record's lengths whose calls are one;
/// whatever its marks and its kept desk are.
fn whole_calls(seen: &Seen) -> Option<usize> {
  let (_, memory) = seen.sides.memory();
  let unmarked = memory.clone().with_marks(&[0; RECORD_CALLS]);
  let (words, bytes) = (unmarked.words.lent(), unmarked.bytes.lent());
  reading::entries(words, bytes).map(|entries| entries.len())
}
