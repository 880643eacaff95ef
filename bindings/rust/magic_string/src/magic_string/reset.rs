use crate::{MagicString, Refusal};

impl MagicString {
  /// Undoes the edits of the source bytes from `start` up to `end`: their chunks lose
  /// their insertions and replacements. Zero width does nothing, and moves stay.
  ///
  /// # Errors
  /// In this order [`Refusal::InsideCharacter`], [`Refusal::EndBeforeStart`],
  /// [`Refusal::PastSource`], [`Refusal::CutInReplacement`] (a cut at `start` stays),
  /// [`Refusal::Frozen`] (both cuts stay), [`Refusal::Limit`], which comes before 6 and 20
  /// where the cuts that would stay are too many.
  ///
  /// # Example
  /// ```
  /// use magic_string::{End, MagicString, Side};
  /// let mut s = MagicString::new("abcdef").unwrap();
  /// s.remove(1, 5).unwrap().insert(3, "Z", Side::Left, End::Back).unwrap();
  /// s.reset(2, 4).unwrap();
  /// assert_eq!(s.to_string(), "acdf");
  /// ```
  pub fn reset(&mut self, start: u32, end: u32) -> Result<&mut Self, Refusal> {
    self.edit(|memory| memory.reset(start, end))
  }
}
