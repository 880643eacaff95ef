use std::fmt;

use super::{counted, reading::Reading};
use crate::{MarkedEntry, Refusal, Sitting};

/// The examiner's view of a [`Sitting`]: the marks of the filed calls, each from 0 to 100
/// tenths of a point. [`Sitting::examiner`] gives it.
///
/// A call has no marks when it is filed, and one that is withdrawn takes its own with it.
///
/// # Example
/// Three calls are marked, and one of them is withdrawn:
/// ```
/// use magic_string::{Call, Refusal, Sitting};
///
/// # fn main() -> Result<(), Refusal> {
/// let mut sitting = Sitting::open("abcdef")?;
/// let mut member = sitting.member();
/// for start in 0..3 {
///   member.file(&Call::Remove { start: 2 * start, end: 2 * start + 1 }).unwrap();
/// }
///
/// // 10, 2.5 and 7 points.
/// let mut examiner = sitting.examiner();
/// examiner.set_marks(1, 100)?.set_marks(2, 25)?.set_marks(3, 70)?;
/// assert_eq!(examiner.total(), 195);
/// assert_eq!(examiner.set_marks(3, 101).err(), Some(Refusal::MarksTooHigh));
///
/// sitting.member().withdraw(2)?;
/// let mut examiner = sitting.examiner();
/// assert_eq!(examiner.total(), 170);
/// let second = examiner.marked_entry(2)?;
/// assert_eq!((second.entry.call, second.marks), (Call::Remove { start: 4, end: 5 }, 70));
/// # Ok(())
/// # }
/// ```
pub struct Examiner<'a> {
  sitting: &'a mut Sitting,
  reading: Reading,
}

impl Sitting {
  /// The examiner's view. The sitting is borrowed as long as it is there.
  pub fn examiner(&mut self) -> Examiner<'_> {
    Examiner { sitting: self, reading: Reading::default() }
  }
}

impl Examiner<'_> {
  /// Writes the marks of the k-th filed call, counted from 1 among those that are filed, in
  /// place of those that it had. They are tenths of a point.
  ///
  /// # Errors
  /// [`Refusal::NoSuchCall`] if k is 0 or above the count of filed calls, then
  /// [`Refusal::MarksTooHigh`] for more than 100. Nothing changes then.
  pub fn set_marks(&mut self, k: usize, marks: u32) -> Result<&mut Self, Refusal> {
    let Sitting { desk, filed } = &mut *self.sitting;
    desk.memory().set_marks(filed, counted(k), marks)?;
    Ok(self)
  }

  /// The k-th filed call with its answer and its marks. The next reading takes its place.
  ///
  /// # Errors
  /// [`Refusal::NoSuchCall`] if k is 0 or above the count of filed calls.
  pub fn marked_entry(&mut self, k: usize) -> Result<MarkedEntry<'_>, Refusal> {
    let Sitting { desk, filed } = &*self.sitting;
    let read = self.reading.read(|out| desk.memory().marked_entry(filed, counted(k), out));
    read.map(MarkedEntry::of_bytes)
  }

  /// The filed calls with their answers and marks, in order.
  pub fn marked_entries(&self) -> Vec<MarkedEntry<'_>> {
    self.sitting.marked_entries()
  }

  /// The sum of the marks of the filed calls, in tenths of a point.
  pub fn total(&self) -> u32 {
    let Sitting { desk, filed } = &*self.sitting;
    desk.memory().total(filed).expect("the record is well formed")
  }
}

impl fmt::Debug for Examiner<'_> {
  fn fmt(&self, out: &mut fmt::Formatter) -> fmt::Result {
    out.debug_struct("Examiner").field("sitting", &self.sitting).finish()
  }
}
