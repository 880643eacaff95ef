use crate::{MagicString, Refusal};

/// The side of a position on which [`MagicString::insert`] adds a text.
#[derive(Debug, Clone, Copy, PartialEq, Eq)]
pub enum Side {
  /// The outro of the chunk that ends at the position. Where none does it is the
  /// whole's intro: past the source, and at 0 if the source is not empty.
  Left,
  /// The intro of the chunk that starts at the position. Where none does it is the
  /// whole's outro: past the source, and at its end if it is not empty.
  Right,
}

/// The end at which [`MagicString::insert`] adds a text to the list of its side.
#[derive(Debug, Clone, Copy, PartialEq, Eq)]
pub enum End {
  /// Before the others.
  Front,
  /// Behind the others.
  Back,
}

impl MagicString {
  /// Adds a text at a position, after a cut there: on this side of it, and at this end of
  /// the list of texts there. string_wizard has a function for each setting:
  ///
  /// | string_wizard | here |
  /// |---|---|
  /// | `append_left(at, text)` | `insert(at, text, Side::Left, End::Back)` |
  /// | `append_right(at, text)` | `insert(at, text, Side::Right, End::Back)` |
  /// | `prepend_left(at, text)` | `insert(at, text, Side::Left, End::Front)` |
  /// | `prepend_right(at, text)` | `insert(at, text, Side::Right, End::Front)` |
  ///
  /// # Errors
  /// In this order [`Refusal::InsideCharacter`], [`Refusal::CutInReplacement`],
  /// [`Refusal::Limit`]. All leave the desk as it was.
  ///
  /// # Example
  /// ```
  /// use magic_string::{End, MagicString, Side};
  /// let mut s = MagicString::new("01234").unwrap();
  /// s.insert(2, "b", Side::Left, End::Back).unwrap();
  /// s.insert(2, "a", Side::Left, End::Front).unwrap();
  /// s.insert(2, "B", Side::Right, End::Back).unwrap();
  /// s.insert(2, "A", Side::Right, End::Front).unwrap();
  /// assert_eq!(s.to_string(), "01abAB234");
  /// ```
  pub fn insert(
    &mut self,
    at: u32,
    text: impl AsRef<str>,
    side: Side,
    end: End,
  ) -> Result<&mut Self, Refusal> {
    self.edit(|memory| {
      memory.insert(at, text.as_ref().as_bytes(), side == Side::Left, end == End::Front)
    })
  }
}
