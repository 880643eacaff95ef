use crate::{MagicString, Refusal, filed::Filed};

impl MagicString {
  /// Freezes the source bytes from `start` up to `end`: an examiner's lock. It cuts at both,
  /// and marks every chunk of the range ([`Chunk::frozen`](crate::Chunk)). No edit clears the
  /// mark, and both halves of a cut have it. From then on [`Self::remove`], [`Self::update`]
  /// and [`Self::reset`] refuse a range with a frozen chunk, trims and indents the whole
  /// desk, with [`Refusal::Frozen`]. So what the bytes show, themselves or the replacement
  /// that they have now, stays. Insertions and moves are free. Zero width does nothing, and
  /// what is frozen already may be frozen again.
  ///
  /// This is for a desk without a record. [`Sitting::freeze`](crate::Sitting::freeze) does it
  /// beside one, and a [`Sitting`](crate::Sitting) can be made of a desk that has frozen
  /// chunks.
  ///
  /// # Errors
  /// Those of [`Self::reset`] but for [`Refusal::Frozen`]: in this order
  /// [`Refusal::InsideCharacter`], [`Refusal::EndBeforeStart`], [`Refusal::PastSource`],
  /// [`Refusal::CutInReplacement`] (a cut at `start` stays, and nothing is frozen),
  /// [`Refusal::Limit`], which comes before 6 where the cut that would stay is one too many.
  ///
  /// # Example
  /// ```
  /// use magic_string::{End, MagicString, Refusal, Side};
  ///
  /// # fn main() -> Result<(), Refusal> {
  /// let mut s = MagicString::new("timeout 30, wind north")?;
  /// s.freeze(0, 10)?;
  /// assert_eq!(s.update(8, 10, "99").err(), Some(Refusal::Frozen));
  /// assert_eq!(s.trim(None).err(), Some(Refusal::Frozen));
  ///
  /// s.update(17, 22, "west")?.insert(10, " s", Side::Left, End::Back)?.relocate(0, 10, 22)?;
  /// assert_eq!(s.to_string(), ", wind westtimeout 30 s");
  /// assert!(s.chunks().last().unwrap().frozen);
  /// # Ok(())
  /// # }
  /// ```
  pub fn freeze(&mut self, start: u32, end: u32) -> Result<&mut Self, Refusal> {
    self.edit(|memory| memory.freeze(&Filed::default(), start, end))
  }
}
