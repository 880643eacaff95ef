use crate::{Call, Refusal};

/// A filed call, as a member reads it: [`Sitting::entries`](crate::Sitting::entries),
/// [`Member::entry`](crate::Member::entry).
#[derive(Debug, Clone, Copy, PartialEq, Eq)]
pub struct Entry<'a> {
  /// The call.
  pub call: Call<'a>,
  /// What it answered: when it was filed, or when the last withdrawal made it anew.
  pub answer: Result<(), Refusal>,
}

/// A filed call with its marks, as the examiner reads it:
/// [`Examiner::marked_entry`](crate::Examiner::marked_entry).
#[derive(Debug, Clone, Copy, PartialEq, Eq)]
pub struct MarkedEntry<'a> {
  /// What a member reads.
  pub entry: Entry<'a>,
  /// Tenths of a point, 0 to 100.
  pub marks: u32,
}

impl<'a> Entry<'a> {
  /// The entry of a member's reading: a record and an answer.
  pub(super) fn of_bytes(bytes: &'a [u8]) -> Self {
    let (&number, record) = bytes.split_last().expect("a reading has an answer");
    let records = sheet_script::records(record).expect("a reading has a record");
    let [record] = <[_; 1]>::try_from(records).expect("a reading has one record");
    Self { call: Call::of_record(record), answer: Refusal::answer(number.into()) }
  }
}

impl<'a> MarkedEntry<'a> {
  /// The entry of an examiner's reading: a member's, and marks.
  pub(super) fn of_bytes(bytes: &'a [u8]) -> Self {
    let (&marks, member) = bytes.split_last().expect("an examiner's reading has marks");
    Self { entry: Entry::of_bytes(member), marks: marks.into() }
  }
}
