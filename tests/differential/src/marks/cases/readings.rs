//! Entries shown to both readers, and totals.

use oracle::number::*;

use super::{READERS, Seen, entries, no_places, places};
use crate::{
  layout::RECORD_MARKS,
  sheets::fields::kind,
  sittings::{
    Action,
    reading::{Entry, Reader, shown},
  },
};

pub fn add(seen: &Seen, add: &mut impl FnMut(String, bool)) {
  READERS.into_iter().for_each(|reader| by(reader, seen, add));
}

fn by(reader: Reader, seen: &Seen, add: &mut impl FnMut(String, bool)) {
  let asked = match *seen.action {
    Action::Show { reader: by, k, room } if by == reader => Some((k, room)),
    _ => None,
  };
  let name = reader.function();
  let mut met =
    |what: &str, is_met: bool| add(format!("{name}: {what}"), asked.is_some() && is_met);
  let (k, room) = asked.unwrap_or_default();
  let (entries, number) = (entries(&seen.record), seen.answer.number);
  let is_done = number == ACCEPTED;
  for (place, is_there) in places(k, entries.len()) {
    met(place, is_there && is_done);
  }
  for (place, is_there) in no_places(k, entries.len()) {
    met(&format!("17 for {place}"), is_there && number == NO_SUCH_CALL);
  }
  let entry = entries.get((k as usize).wrapping_sub(1));
  let is = |is_met: &dyn Fn(&Entry) -> bool| is_done && entry.is_some_and(is_met);
  for of_kind in 1..=8 {
    met(&format!("kind {of_kind}"), is(&|entry| kind(&entry.call) == Some(of_kind)));
  }
  met("an accepted call", is(&|entry| entry.answer == 0));
  met("a refused call", is(&|entry| (1..=20).contains(&entry.answer)));
  met("an answer that no call gets", is(&|entry| entry.answer > 21));
  let text = |entry: &Entry| entry.call.text().map(<[u8]>::len);
  met("an empty text", is(&|entry| text(entry) == Some(0)));
  met("a text of more than 255 bytes", is(&|entry| text(entry).is_some_and(|len| len > 255)));
  met("the longest text", is(&|entry| text(entry) == Some(32_768)));
  met("no marks", is(&|entry| entry.marks == 0));
  met("the highest marks", is(&|entry| entry.marks == 100));
  met("other marks", is(&|entry| (1..100).contains(&entry.marks)));

  let needed = entry.map_or(0, |entry| shown(entry, reader).len());
  met("room for just so many bytes", is_done && room == needed);
  met("room for a byte more", is_done && room == needed + 1);
  met("room for many more", is_done && room > needed + 100);
  let is_short = number == SHORT_BUFFER;
  met("14 with no room", is_short && room == 0);
  met("14 with room for a byte", is_short && room == 1);
  met("14 with a byte less", is_short && room + 1 == needed);
  met("17 before 14", number == NO_SUCH_CALL && room == 0);
  let (is_none, no_call) = (number == NOT_WELL_FORMED, k == 0 || k > 200);
  met("2 before 17", is_none && no_call && room > 0);
  met("2 before 14", is_none && !no_call && room == 0);
  met("2 before 17 and 14", is_none && no_call && room == 0);
  met("without a desk", is_done && seen.desk().is_none());
}

pub fn totals(seen: &Seen, add: &mut impl FnMut(String, bool)) {
  let is_total = matches!(seen.action, Action::Total) && seen.answer.number == ACCEPTED;
  let (entries, total) = (entries(&seen.record), seen.answer.value);
  let mut met = |name: &str, is_met: bool| add(format!("total: {name}"), is_total && is_met);
  met("of no entry", entries.is_empty());
  met("of no marks", !entries.is_empty() && total == 0);
  met("of one entry", entries.len() == 1 && total > 0);
  met("255", total == 255);
  met("256", total == 256);
  met("of more than 255", total > 255);
  met("20000", total == 20_000);
  let (_, memory) = seen.sides.memory();
  let bytes = memory.bytes.lent();
  let behind = bytes.get(RECORD_MARKS + entries.len()).filter(|_| entries.len() < 200);
  met("with a byte behind the last marks", behind.is_some_and(|&byte| byte > 0));
  met("without a desk", seen.desk().is_none() && total > 0);
}
