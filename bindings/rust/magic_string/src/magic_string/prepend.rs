use crate::{MagicString, Refusal};

impl MagicString {
  /// Adds a text at the start of the output.
  ///
  /// # Errors
  /// [`Refusal::Limit`].
  pub fn prepend(&mut self, source: impl AsRef<str>) -> Result<&mut Self, Refusal> {
    self.edit(|memory| memory.prepend(source.as_ref()))
  }
}
