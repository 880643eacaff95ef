use crate::{MagicString, Refusal};

impl MagicString {
  /// Walks the list: the output of the chunks from the one that holds the byte at
  /// `start` to the first from there on that holds `end` (its span begins before `end`
  /// and reaches it), cut at both. Where no chunk from `start` on holds `end` the walk
  /// goes to the end of the list; the slice is empty where a chunk that holds `end` is
  /// met before the one that holds `start`, and where none holds `start`. Without an
  /// `end` it is the source's end.
  ///
  /// # Errors
  /// In this order [`Refusal::InsideCharacter`], [`Refusal::SliceStart`],
  /// [`Refusal::SliceEnd`].
  ///
  /// # Example
  /// ```
  /// use magic_string::{MagicString, Refusal};
  /// let mut s = MagicString::new("abcdef").unwrap();
  /// s.update(2, 4, "X").unwrap();
  /// assert_eq!(s.slice(1, Some(5)), Ok("bXe".to_string()));
  /// assert_eq!(s.slice(4, None), Ok("ef".to_string()));
  /// assert_eq!(s.slice(3, None), Err(Refusal::SliceStart));
  /// assert_eq!(s.slice(0, Some(3)), Err(Refusal::SliceEnd));
  ///
  /// let fresh = MagicString::new("abcdef").unwrap();
  /// assert_eq!(fresh.slice(2, Some(0)), Ok("cdef".to_string()));
  /// ```
  pub fn slice(&self, start: u32, end: Option<u32>) -> Result<String, Refusal> {
    self.text(|memory, out| memory.slice(start, end, out))
  }
}
