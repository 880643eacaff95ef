use crate::{MagicString, Refusal};

impl MagicString {
  /// Removes the source bytes from `start` up to `end`, and what was inserted at their
  /// chunks. An `end` past the source is accepted; zero width does nothing.
  ///
  /// # Errors
  /// In this order [`Refusal::InsideCharacter`], [`Refusal::EndBeforeStart`],
  /// [`Refusal::CutInReplacement`] (a cut at `start` stays), [`Refusal::Frozen`] (both cuts
  /// stay), [`Refusal::Limit`], which comes before 6 and 20 where the cuts that would stay
  /// are too many.
  ///
  /// # Example
  /// ```
  /// use magic_string::{End, MagicString, Side};
  /// let mut s = MagicString::new("abcdef").unwrap();
  /// s.remove(1, 5).unwrap().insert(3, "Z", Side::Left, End::Back).unwrap();
  /// assert_eq!(s.to_string(), "aZf");
  /// ```
  pub fn remove(&mut self, start: u32, end: u32) -> Result<&mut Self, Refusal> {
    self.edit(|memory| memory.remove(start, end))
  }

  /// Moves the source bytes from `start` up to `end` before the chunk that starts at
  /// `to`, or to the end of the list where none does. Zero width does nothing.
  ///
  /// # Errors
  /// In this order [`Refusal::InsideCharacter`], [`Refusal::IntoItself`],
  /// [`Refusal::EndBeforeStart`], [`Refusal::PastSource`],
  /// [`Refusal::CutInReplacement`], [`Refusal::NotTogether`] (after these two the cuts
  /// that were made stay), [`Refusal::Limit`], which comes before 6 and 9 where the
  /// cuts that would stay are too many.
  ///
  /// # Example
  /// ```
  /// use magic_string::{MagicString, Refusal};
  /// let mut s = MagicString::new("abc").unwrap();
  /// s.relocate(0, 2, 3).unwrap();
  /// assert_eq!(s.to_string(), "cab");
  /// // b and c stand apart now.
  /// assert_eq!(s.relocate(1, 3, 0).err(), Some(Refusal::NotTogether));
  /// assert_eq!(s.to_string(), "cab");
  /// ```
  // `move` is a reserved word in Rust; string_wizard's name is used.
  pub fn relocate(&mut self, start: u32, end: u32, to: u32) -> Result<&mut Self, Refusal> {
    self.edit(|memory| memory.relocate(start, end, to))
  }
}
