use crate::{MagicString, Refusal};

impl MagicString {
  /// Takes white space off the start and end of the output, piece by piece. The
  /// patterns are `"\\s"`, which `None` means too, and `"[\\r\\n]"`.
  ///
  /// # Errors
  /// [`Refusal::BadOption`] for any other pattern, then [`Refusal::Frozen`] if any chunk is
  /// frozen, then [`Refusal::Limit`].
  ///
  /// # Example
  /// ```
  /// use magic_string::{MagicString, Refusal};
  /// let mut s = MagicString::new("\n  abc \n").unwrap();
  /// s.trim(Some("[\\r\\n]")).unwrap();
  /// assert_eq!(s.to_string(), "  abc ");
  /// s.trim(None).unwrap();
  /// assert_eq!(s.to_string(), "abc");
  /// assert_eq!(s.trim(Some("[a-c]")).err(), Some(Refusal::BadOption));
  /// ```
  pub fn trim(&mut self, char_type: Option<&str>) -> Result<&mut Self, Refusal> {
    self.edit(|memory| memory.trim(pattern(char_type)))
  }

  /// Off the start alone. The whole's outro is never touched.
  ///
  /// # Errors
  /// As [`Self::trim`].
  pub fn trim_start(&mut self, char_type: Option<&str>) -> Result<&mut Self, Refusal> {
    self.edit(|memory| memory.trim_start(pattern(char_type)))
  }

  /// Off the end alone. The whole's intro is never touched.
  ///
  /// # Errors
  /// As [`Self::trim`].
  pub fn trim_end(&mut self, char_type: Option<&str>) -> Result<&mut Self, Refusal> {
    self.edit(|memory| memory.trim_end(pattern(char_type)))
  }

  /// Takes line ends off both ends.
  ///
  /// # Errors
  /// [`Refusal::Frozen`] if any chunk is frozen, then [`Refusal::Limit`].
  pub fn trim_lines(&mut self) -> Result<&mut Self, Refusal> {
    self.edit(|memory| memory.trim_lines())
  }
}

/// The number of a pattern, in string_wizard's spellings. 2 is refused.
fn pattern(char_type: Option<&str>) -> u32 {
  match char_type {
    None | Some("\\s") => 0,
    Some("[\\r\\n]" | "[\r\n]") => 1,
    Some(_) => 2,
  }
}
