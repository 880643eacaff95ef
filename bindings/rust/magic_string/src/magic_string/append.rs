use crate::{MagicString, Refusal};

impl MagicString {
  /// Adds a text at the end of the output.
  ///
  /// # Errors
  /// [`Refusal::Limit`].
  pub fn append(&mut self, source: impl AsRef<str>) -> Result<&mut Self, Refusal> {
    self.edit(|memory| memory.append(source.as_ref()))
  }
}
