use std::fmt;

use super::{counted, reading::Reading};
use crate::{Call, Entry, FilingError, MagicString, Refusal, Sitting};

/// A member's view of a [`Sitting`]: the desk, and the filed calls with their answers; calls
/// are filed and withdrawn. [`Sitting::member`] gives it.
///
/// It tells nothing of the examiner's marks, and nothing leads from it to the sitting or to
/// an [`Examiner`](crate::Examiner): it cannot be cloned, and the sitting is borrowed as long
/// as it is there. The calls that it makes are among those of which it is proved that they
/// answer the same whatever the marks are (`include/magic_string.h`, "marks").
///
/// # Example
/// ```
/// use magic_string::{Call, Entry, Refusal, Sitting};
///
/// # fn main() -> Result<(), Refusal> {
/// let mut sitting = Sitting::open("abc")?;
/// let mut member = sitting.member();
/// let call = Call::Remove { start: 0, end: 1 };
/// member.file(&call).unwrap();
/// assert_eq!(member.entry(1), Ok(Entry { call, answer: Ok(()) }));
/// assert_eq!(member.desk().to_string(), "bc");
/// # Ok(())
/// # }
/// ```
///
/// The examiner's calls are not there,
/// ```compile_fail,E0599
/// # let mut sitting = magic_string::Sitting::open("abc").unwrap();
/// sitting.member().total();
/// ```
/// ```compile_fail,E0599
/// # let mut sitting = magic_string::Sitting::open("abc").unwrap();
/// sitting.member().marked_entry(1);
/// ```
/// ```compile_fail,E0599
/// # let mut sitting = magic_string::Sitting::open("abc").unwrap();
/// sitting.member().set_marks(1, 100);
/// ```
/// nor is a way to them:
/// ```compile_fail,E0599
/// # let mut sitting = magic_string::Sitting::open("abc").unwrap();
/// sitting.member().examiner();
/// ```
/// ```compile_fail,E0616
/// # let mut sitting = magic_string::Sitting::open("abc").unwrap();
/// sitting.member().sitting;
/// ```
pub struct Member<'a> {
  sitting: &'a mut Sitting,
  reading: Reading,
}

impl Sitting {
  /// The member's view. The sitting is borrowed as long as it is there.
  pub fn member(&mut self) -> Member<'_> {
    Member { sitting: self, reading: Reading::default() }
  }
}

impl Member<'_> {
  /// As [`Sitting::desk`].
  pub fn desk(&self) -> &MagicString {
    self.sitting.desk()
  }

  /// As [`Sitting::start`].
  pub fn start(&self) -> MagicString {
    self.sitting.start()
  }

  /// As [`Sitting::entries`].
  pub fn entries(&self) -> Vec<Entry<'_>> {
    self.sitting.entries()
  }

  /// The k-th filed call with its answer, counted from 1 among those that are filed. The
  /// next reading takes its place.
  ///
  /// # Errors
  /// [`Refusal::NoSuchCall`] if k is 0 or above [`Self::len`].
  pub fn entry(&mut self, k: usize) -> Result<Entry<'_>, Refusal> {
    let Sitting { desk, filed } = &*self.sitting;
    let read = self.reading.read(|out| desk.memory().entry(filed, counted(k), out));
    read.map(Entry::of_bytes)
  }

  /// As [`Sitting::len`].
  pub fn len(&self) -> usize {
    self.sitting.len()
  }

  /// As [`Sitting::is_empty`].
  pub fn is_empty(&self) -> bool {
    self.sitting.is_empty()
  }

  /// As [`Sitting::file`].
  ///
  /// # Errors
  /// The same.
  pub fn file(&mut self, call: &Call) -> Result<&mut Self, FilingError> {
    self.sitting.file(call)?;
    Ok(self)
  }

  /// As [`Sitting::withdraw`].
  ///
  /// # Errors
  /// The same.
  pub fn withdraw(&mut self, k: usize) -> Result<&mut Self, Refusal> {
    self.sitting.withdraw(k)?;
    Ok(self)
  }
}

/// Without marks.
impl fmt::Debug for Member<'_> {
  fn fmt(&self, out: &mut fmt::Formatter) -> fmt::Result {
    let (desk, entries) = (self.desk(), self.entries());
    out.debug_struct("Member").field("desk", desk).field("entries", &entries).finish()
  }
}
