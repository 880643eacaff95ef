use super::reported;
use crate::{MagicString, Refusal, memory::Memory};

impl MagicString {
  /// The indent that the source's lines suggest: a tab, unless more of them begin with
  /// two spaces than with a tab; then as many spaces as the one of those lines that
  /// begins with the fewest.
  ///
  /// # Example
  /// ```
  /// use magic_string::MagicString;
  /// assert_eq!(MagicString::new("a\n  b\n    c").unwrap().get_indent_string(), "  ");
  /// assert_eq!(MagicString::new("a\nb").unwrap().get_indent_string(), "\t");
  /// ```
  pub fn get_indent_string(&self) -> String {
    reported(self.text(Memory::get_indent_string))
  }
}

/// How [`MagicString::indent_with`] indents.
#[derive(Debug, Default)]
pub struct IndentOptions<'a, 'b> {
  /// MagicString will guess the `indentor` from lines of the source if passed `None`.
  pub indentor: Option<&'a str>,

  /// Half-open `[start, end)` source-offset ranges whose characters are left
  /// un-indented.
  pub exclude: &'b [(u32, u32)],
}

impl MagicString {
  /// Indents every line by [`Self::get_indent_string`].
  ///
  /// # Errors
  /// [`Refusal::Frozen`] if any chunk is frozen, then [`Refusal::Limit`].
  ///
  /// # Example
  /// ```
  /// use magic_string::MagicString;
  /// let mut s = MagicString::new("a\nb").unwrap();
  /// s.indent().unwrap();
  /// assert_eq!(s.to_string(), "\ta\n\tb");
  /// ```
  pub fn indent(&mut self) -> Result<&mut Self, Refusal> {
    self.indent_with(IndentOptions { indentor: None, ..Default::default() })
  }

  /// Indents every line that begins outside the excluded ranges. The insertions of
  /// chunks are passed over. An empty indentor does nothing.
  ///
  /// # Errors
  /// [`Refusal::InsideCharacter`] for the excluded ranges, then [`Refusal::Frozen`] if any
  /// chunk is frozen, with an empty indentor too, then [`Refusal::Limit`].
  ///
  /// # Example
  /// ```
  /// use magic_string::{IndentOptions, MagicString};
  /// let mut s = MagicString::new("a\nb\nc").unwrap();
  /// s.indent_with(IndentOptions { indentor: Some("> "), exclude: &[(2, 3)] }).unwrap();
  /// assert_eq!(s.to_string(), "> a\nb\n> c");
  /// ```
  pub fn indent_with(&mut self, opts: IndentOptions) -> Result<&mut Self, Refusal> {
    let exclude: Vec<u32> = opts.exclude.iter().flat_map(|&(start, end)| [start, end]).collect();
    self.edit(|memory| memory.indent_with(opts.indentor, &exclude))
  }
}
