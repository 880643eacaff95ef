//! Document 02's L5, and what L8 and L9 add to it, read plainly: a record is a list of calls
//! with their answers and their marks, and the desk as it stood before the first of them, on
//! which a withdrawal makes those that are left. It is written to be read beside the
//! request, not to be fast.

use oracle::{Answer, Call, Desk, Limits, apply, number};

use super::memory::call_bytes;
use crate::{image::decode, sheets::reading::records, well_formed};

pub const MOST_CALLS: usize = 200;
pub const MOST_TEXT: usize = 32_768;
pub const MOST_MARKS: u8 = 100;

/// A filed call, its answer, accepted or not, and its marks.
#[derive(Debug, Clone, PartialEq, Eq)]
pub struct Entry {
  pub call: Call,
  pub answer: u8,
  pub marks: u8,
}

#[derive(Debug, Clone, Default)]
pub struct Record {
  pub entries: Vec<Entry>,
  /// The desk as it stood before the first of them; none where there is none.
  pub kept: Option<Desk>,
}

/// The record in lent memory, beside a desk over this source; none where it is not well
/// formed. Without calls the kept desk is not looked at.
pub fn read(source: &[u8], words: &[u32], bytes: &[u8]) -> Option<Record> {
  let entries = entries(words, bytes)?;
  if entries.is_empty() {
    return Some(Record::default());
  }
  let (chunks, pieces) = words[1..].split_at(6_156);
  let store = &bytes[36_168..];
  well_formed(source, chunks, pieces, store).then(|| {
    let kept = Desk::build(Limits::FULL, &decode(source, chunks, pieces, store));
    Record { entries, kept: Some(kept) }
  })
}

/// Its entries; none where memory of these lengths, these calls or these marks is no record.
/// What the answers are, what stands behind the used bytes and behind the marks of the
/// calls, and whether texts are UTF-8 is not looked at.
pub fn entries(words: &[u32], bytes: &[u8]) -> Option<Vec<Entry>> {
  if words.len() != 10_253 || bytes.len() != 68_936 {
    return None;
  }
  let (calls, answers, marks) = (&bytes[..35_768], &bytes[35_768..35_968], &bytes[35_968..36_168]);
  let used = calls.get(..words[0] as usize)?;
  let entry = |(((_, call), &answer), &marks)| Entry { call, answer, marks };
  let calls = records(used)?;
  let is_short = calls.len() <= MOST_CALLS;
  let entries: Vec<Entry> = calls.into_iter().zip(answers).zip(marks).map(entry).collect();
  let fits = entries.iter().all(|entry| entry.marks <= MOST_MARKS);
  (is_short && fits && texts(&entries) <= MOST_TEXT).then_some(entries)
}

/// The bytes of all texts.
pub fn texts(entries: &[Entry]) -> usize {
  entries.iter().map(|entry| text(&entry.call)).sum()
}

fn text(call: &Call) -> usize {
  call.text().map_or(0, <[u8]>::len)
}

/// Makes a call and files it without marks; before the first one the desk is kept. The desk
/// and the record are none where they are not well formed.
pub fn file(desk: Option<&mut Desk>, record: Option<&mut Record>, call: &[u8]) -> Answer {
  let (Some(desk), Some(record)) = (desk, record) else {
    return Answer::number(number::NOT_WELL_FORMED);
  };
  let Some(call) = one_call(call) else {
    return Answer::number(number::BAD_SHEET);
  };
  if record.entries.len() == MOST_CALLS || texts(&record.entries) + text(&call) > MOST_TEXT {
    return Answer::number(number::LIMIT);
  }
  record.kept.get_or_insert_with(|| desk.clone());
  let answer = apply(desk, &call);
  record.entries.push(Entry { call, answer: answer.number as u8, marks: 0 });
  answer
}

/// The call of exactly one record of a sheet.
pub fn one_call(bytes: &[u8]) -> Option<Call> {
  let mut calls = records(bytes)?.into_iter().map(|(_, call)| call);
  calls.next().filter(|_| calls.next().is_none())
}

/// Takes the k-th call out, counted from 1, with its marks, and makes the others in order on
/// the kept desk. With the last call the kept desk goes too.
pub fn withdraw(desk: Option<&mut Desk>, record: Option<&mut Record>, k: u32) -> Answer {
  let (Some(desk), Some(record)) = (desk, record) else {
    return Answer::number(number::NOT_WELL_FORMED);
  };
  let Some(place) = place(record, k) else {
    return Answer::number(number::NO_SUCH_CALL);
  };
  record.entries.remove(place);
  desk.clone_from(record.kept.as_ref().expect("a record with calls keeps a desk"));
  for entry in &mut record.entries {
    entry.answer = apply(desk, &entry.call).number as u8;
  }
  record.kept.take_if(|_| record.entries.is_empty());
  Answer::number(number::ACCEPTED)
}

/// Freezes the bytes from start up to end, with no call filed.
pub fn freeze(desk: Option<&mut Desk>, record: Option<&Record>, start: u32, end: u32) -> Answer {
  let (Some(desk), Some(record)) = (desk, record) else {
    return Answer::number(number::NOT_WELL_FORMED);
  };
  if !record.entries.is_empty() {
    return Answer::number(number::FROZEN);
  }
  apply(desk, &Call::Freeze { start, end })
}

/// Where the k-th entry stands in the list, counted from 1.
fn place(record: &Record, k: u32) -> Option<usize> {
  (k as usize).checked_sub(1).filter(|&place| place < record.entries.len())
}

/// Writes the marks of the k-th entry.
pub fn set_marks(record: Option<&mut Record>, k: u32, marks: u32) -> Answer {
  let Some(record) = record else {
    return Answer::number(number::NOT_WELL_FORMED);
  };
  let Some(place) = place(record, k) else {
    return Answer::number(number::NO_SUCH_CALL);
  };
  if marks > MOST_MARKS.into() {
    return Answer::number(number::MARKS_TOO_HIGH);
  }
  record.entries[place].marks = marks as u8;
  Answer::number(number::ACCEPTED)
}

/// Who reads an entry: the member's reading shows no marks.
#[derive(Debug, Clone, Copy, PartialEq, Eq)]
pub enum Reader {
  Member,
  Examiner,
}

impl Reader {
  /// The exported function that shows an entry, without its prefix.
  pub fn function(self) -> &'static str {
    match self {
      Reader::Member => "entry",
      Reader::Examiner => "marked_entry",
    }
  }
}

/// The k-th entry, written to a buffer of so many bytes.
pub fn show_entry(record: Option<&Record>, reader: Reader, k: u32, room: usize) -> Answer {
  let Some(record) = record else {
    return Answer::number(number::NOT_WELL_FORMED);
  };
  let Some(place) = place(record, k) else {
    return Answer::number(number::NO_SUCH_CALL);
  };
  Answer::written(shown(&record.entries[place], reader), Some(room as u32))
}

/// "Kind, positions, text and answer, as L1's record and then a byte; the examiner's has the
/// marks as one byte more".
pub fn shown(entry: &Entry, reader: Reader) -> Vec<u8> {
  let mut bytes = call_bytes(&entry.call);
  bytes.push(entry.answer);
  bytes.extend((reader == Reader::Examiner).then_some(entry.marks));
  bytes
}

/// The sum of the marks of all entries.
pub fn total(record: Option<&Record>) -> Answer {
  let Some(record) = record else {
    return Answer::number(number::NOT_WELL_FORMED);
  };
  Answer::value(record.entries.iter().map(|entry| u32::from(entry.marks)).sum())
}
