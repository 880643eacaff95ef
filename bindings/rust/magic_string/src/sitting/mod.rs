mod call;
mod entry;
mod error;
mod examiner;
mod member;
mod reading;

pub use call::Call;
pub use entry::{Entry, MarkedEntry};
pub use error::FilingError;
pub use examiner::Examiner;
pub use member::Member;

use std::fmt;

use magic_string_sys::{Answer, numbers};

use crate::{MagicString, Refusal, filed::Filed};

/// A desk and a record of the calls that were made on it, any of which can be taken back.
///
/// A sitting begins on a fresh desk ([`Self::open`]) or on any other one, edited and frozen
/// as the examiner wants it (`Sitting::from(desk)`). While no call is filed it can be frozen
/// further ([`Self::freeze`]). Else only [`Self::file`] and [`Self::withdraw`] change it. So
/// the desk is always what the filed calls leave when they are made in order on the one
/// before the first of them ([`Self::start`]), and their answers are those of that run.
///
/// Each filed call has marks, which an examiner writes. Who has the sitting has both views of
/// it: [`Self::examiner`], and [`Self::member`], which is to be handed to a member, since it
/// tells no marks.
///
/// A record has at most 200 calls, and their texts at most 32,768 bytes together
/// ([`RECORD_CALLS`](crate::layout::RECORD_CALLS),
/// [`RECORD_TEXT`](crate::layout::RECORD_TEXT)). It takes some 110 kB on the heap beside
/// those of the desk. Two sittings are equal if their desks, those before the first call,
/// their entries and the marks of these are.
///
/// # Example
/// A withdrawal makes the later calls anew, so their answers may change:
/// ```
/// use magic_string::{Call, FilingError, Refusal, Sitting};
///
/// # fn main() -> Result<(), Refusal> {
/// let mut sitting = Sitting::open("abcdef")?;
/// sitting.file(&Call::Update { start: 1, end: 4, text: "XY" }).unwrap();
///
/// // A refused call is filed too.
/// let refused = sitting.file(&Call::Relocate { start: 2, end: 3, to: 6 }).err();
/// assert_eq!(refused, Some(FilingError::Refused(Refusal::CutInReplacement)));
///
/// sitting.file(&Call::Update { start: 1, end: 4, text: "Z" }).unwrap();
/// assert_eq!(sitting.desk().to_string(), "aZef");
///
/// // Without the first call the move is done, and the last replacement, now across a
/// // moved edge, is not.
/// sitting.withdraw(1)?;
/// assert_eq!(sitting.desk().to_string(), "abdefc");
/// let answers: Vec<_> = sitting.entries().iter().map(|entry| entry.answer).collect();
/// assert_eq!(answers, [Ok(()), Err(Refusal::AcrossMovedEdge)]);
/// # Ok(())
/// # }
/// ```
#[derive(Default, Clone)]
pub struct Sitting {
  desk: MagicString,
  filed: Filed,
}

/// The desk as it stands, beside an empty record. What was edited and frozen on it is not
/// filed, and no withdrawal takes it back.
///
/// # Example
/// ```
/// use magic_string::{Call, FilingError, MagicString, Refusal, Sitting};
///
/// # fn main() -> Result<(), Refusal> {
/// let mut desk = MagicString::new("timeout 30, wind north")?;
/// desk.remove(10, 12)?.freeze(0, 10)?;
///
/// let mut sitting = Sitting::from(desk);
/// let refused = sitting.file(&Call::Update { start: 8, end: 10, text: "99" }).err();
/// assert_eq!(refused, Some(FilingError::Refused(Refusal::Frozen)));
/// sitting.withdraw(1)?;
/// assert_eq!(sitting.desk().to_string(), "timeout 30wind north");
/// # Ok(())
/// # }
/// ```
impl From<MagicString> for Sitting {
  fn from(desk: MagicString) -> Self {
    Self { desk, filed: Filed::default() }
  }
}

impl Sitting {
  /// A fresh desk over the source, and an empty record.
  ///
  /// # Errors
  /// As [`MagicString::new`].
  pub fn open(source: impl Into<String>) -> Result<Self, Refusal> {
    Ok(MagicString::new(source)?.into())
  }

  /// The desk, for its reports. It cannot be edited here, since a withdrawal would lose an
  /// edit that is not filed; a clone of it can. Its [`cuts`](MagicString::cuts) are those
  /// of the last [`Self::file`] or [`Self::freeze`], and 0 after a [`Self::withdraw`].
  pub fn desk(&self) -> &MagicString {
    &self.desk
  }

  /// The desk as it stood before the first filed call, frozen chunks and all: the one from
  /// which a withdrawal starts. If no call is filed it is the desk itself.
  pub fn start(&self) -> MagicString {
    if self.is_empty() {
      return self.desk.clone();
    }
    let (chunks, pieces, store) = self.filed.kept();
    let kept = MagicString::from_tables(self.desk.source(), chunks, pieces, store);
    kept.expect("a record with calls keeps a desk over the source")
  }

  /// The filed calls with their answers, in order.
  pub fn entries(&self) -> Vec<Entry<'_>> {
    let records = sheet_script::records(self.filed.calls()).expect("filed calls are records");
    let answered = records.into_iter().zip(self.filed.answers());
    let entry = |(record, &number): (_, &u8)| Entry {
      call: Call::of_record(record),
      answer: Refusal::answer(number.into()),
    };
    answered.map(entry).collect()
  }

  /// The same with their marks.
  fn marked_entries(&self) -> Vec<MarkedEntry<'_>> {
    let marked = self.entries().into_iter().zip(self.filed.marks());
    marked.map(|(entry, &marks)| MarkedEntry { entry, marks: marks.into() }).collect()
  }

  /// How many calls are filed.
  pub fn len(&self) -> usize {
    self.entries().len()
  }

  /// Whether no call is filed.
  pub fn is_empty(&self) -> bool {
    self.filed.calls().is_empty()
  }
}

/// The calls on a record.
impl Sitting {
  /// Freezes the source bytes from `start` up to `end`, if no call is filed: as
  /// [`MagicString::freeze`]. `desk().cuts()` tells how many cuts it made that remain.
  ///
  /// # Errors
  /// [`Refusal::Frozen`] if a call is filed, whatever the range; nothing changes then. Else
  /// as [`MagicString::freeze`].
  ///
  /// # Example
  /// ```
  /// use magic_string::{Call, FilingError, Refusal, Sitting};
  ///
  /// let mut sitting = Sitting::open("abcdef").unwrap();
  /// sitting.freeze(2, 4).unwrap().file(&Call::Remove { start: 0, end: 1 }).unwrap();
  /// let refused = sitting.file(&Call::Remove { start: 1, end: 3 }).err();
  /// assert_eq!(refused, Some(FilingError::Refused(Refusal::Frozen)));
  ///
  /// assert_eq!(sitting.freeze(4, 6).err(), Some(Refusal::Frozen));
  /// sitting.withdraw(2).unwrap().withdraw(1).unwrap().freeze(4, 6).unwrap();
  /// assert_eq!(sitting.desk().chunks().filter(|chunk| chunk.frozen).count(), 2);
  /// ```
  pub fn freeze(&mut self, start: u32, end: u32) -> Result<&mut Self, Refusal> {
    self.desk.edit(|memory| memory.freeze(&self.filed, start, end))?;
    Ok(self)
  }

  /// Makes the call and files it behind the others with its answer, whether it was accepted
  /// or refused. `desk().cuts()` tells how many cuts it made that remain.
  ///
  /// # Errors
  /// [`FilingError::NotFiled`] if the record has no room for the call. Nothing changes
  /// then. [`FilingError::Refused`] with the refusal that the edit gave: the call is filed
  /// all the same. So a limit of the record that would be broken is told from one of the
  /// desk, which is `Refused(Refusal::Limit)`.
  ///
  /// # Example
  /// ```
  /// use magic_string::{Call, End, FilingError, Refusal, Side, Sitting};
  ///
  /// let mut sitting = Sitting::open("abc").unwrap();
  /// let insert = |text| Call::Insert { at: 1, text, side: Side::Left, end: End::Back };
  /// sitting.file(&insert("!")).unwrap().file(&Call::Remove { start: 0, end: 1 }).unwrap();
  /// assert_eq!((sitting.desk().to_string(), sitting.desk().cuts()), ("bc".to_string(), 0));
  ///
  /// let backwards = sitting.file(&Call::Remove { start: 2, end: 1 }).err();
  /// assert_eq!(backwards, Some(FilingError::Refused(Refusal::EndBeforeStart)));
  /// let too_long = sitting.file(&insert(&"x".repeat(32_769))).err();
  /// assert_eq!(too_long, Some(FilingError::NotFiled));
  /// assert_eq!(sitting.len(), 3);
  /// ```
  pub fn file(&mut self, call: &Call) -> Result<&mut Self, FilingError> {
    let before = self.filed.calls().len();
    // A text that is too long for a record of a sheet is too long for this record too.
    let no_room = Answer { number: numbers::LIMIT, value: 0 };
    let record = call.record().bytes();
    let made = self.desk.edit(|memory| match record {
      Some(record) => memory.file(&mut self.filed, &record),
      None => no_room,
    });
    match made.map(drop) {
      Ok(()) => Ok(self),
      Err(_) if self.filed.calls().len() == before => Err(FilingError::NotFiled),
      Err(refusal) => Err(FilingError::Refused(refusal)),
    }
  }

  /// Takes the k-th filed call out, counted from 1 among those that are filed, and makes
  /// the others in order on the desk before the first of them ([`Self::start`]). They get
  /// the answers of this run: one that was accepted may be refused now, or the other way
  /// round.
  ///
  /// # Errors
  /// [`Refusal::NoSuchCall`] if k is 0 or above [`Self::len`]. Nothing changes then.
  ///
  /// # Example
  /// ```
  /// use magic_string::{Call, Refusal, Sitting};
  ///
  /// let mut sitting = Sitting::open("abc").unwrap();
  /// sitting.file(&Call::Remove { start: 0, end: 1 }).unwrap();
  /// sitting.file(&Call::Remove { start: 2, end: 3 }).unwrap();
  /// sitting.withdraw(1).unwrap();
  /// assert_eq!(sitting.desk().to_string(), "ab");
  /// assert_eq!(sitting.withdraw(2).err(), Some(Refusal::NoSuchCall));
  /// sitting.withdraw(1).unwrap();
  /// assert_eq!(sitting, Sitting::open("abc").unwrap());
  /// ```
  pub fn withdraw(&mut self, k: usize) -> Result<&mut Self, Refusal> {
    self.desk.edit(|memory| memory.withdraw(&mut self.filed, counted(k)))?;
    Ok(self)
  }
}

/// The number of a filed call. No record has as many calls as the highest.
fn counted(k: usize) -> u32 {
  u32::try_from(k).unwrap_or(u32::MAX)
}

/// With marks.
impl fmt::Debug for Sitting {
  fn fmt(&self, out: &mut fmt::Formatter) -> fmt::Result {
    let (desk, entries) = (&self.desk, self.marked_entries());
    out.debug_struct("Sitting").field("desk", desk).field("entries", &entries).finish()
  }
}

impl PartialEq for Sitting {
  fn eq(&self, other: &Self) -> bool {
    self.desk == other.desk
      && self.marked_entries() == other.marked_entries()
      && self.start() == other.start()
  }
}

impl Eq for Sitting {}
