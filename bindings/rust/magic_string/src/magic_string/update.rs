use crate::{MagicString, Refusal};

/// How [`MagicString::update_with`] replaces.
#[derive(Debug, Default, Clone)]
pub struct UpdateOptions {
  /// `true` will clear the `intro` and `outro` of the first chunk of the range, as
  /// those of the others always are.
  pub overwrite: bool,
}

impl MagicString {
  /// A shorthand for `update_with(start, end, content, Default::default())`.
  ///
  /// # Errors
  /// As [`Self::update_with`].
  pub fn update(
    &mut self,
    start: u32,
    end: u32,
    content: impl AsRef<str>,
  ) -> Result<&mut Self, Refusal> {
    self.update_with(start, end, content, Default::default())
  }

  /// Replaces the source bytes from `start` up to `end` by a text.
  ///
  /// # Errors
  /// In this order [`Refusal::InsideCharacter`], [`Refusal::ZeroWidth`],
  /// [`Refusal::EndBeforeStart`], [`Refusal::CutInReplacement`],
  /// [`Refusal::PastSource`], [`Refusal::Frozen`], [`Refusal::AcrossMovedEdge`],
  /// [`Refusal::Limit`]. After 6, 10, 20 and 7 the cuts that were made stay, and so do the
  /// chunks that were cleared before 7; the limit comes before these four where the cuts
  /// that would stay are too many.
  ///
  /// # Example
  /// ```
  /// use magic_string::{End, MagicString, Side, UpdateOptions};
  /// let mut s = MagicString::new("abcd").unwrap();
  /// s.insert(1, "<", Side::Right, End::Back).unwrap();
  /// s.update(1, 3, "X").unwrap();
  /// assert_eq!(s.to_string(), "a<Xd");
  /// s.update_with(1, 3, "Y", UpdateOptions { overwrite: true }).unwrap();
  /// assert_eq!(s.to_string(), "aYd");
  /// ```
  pub fn update_with(
    &mut self,
    start: u32,
    end: u32,
    content: impl AsRef<str>,
    opts: UpdateOptions,
  ) -> Result<&mut Self, Refusal> {
    self.edit(|memory| memory.update_with(start, end, content.as_ref().as_bytes(), opts.overwrite))
  }
}
