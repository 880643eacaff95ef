pub mod append;
pub mod freeze;
pub mod indent;
pub mod insert;
pub mod join;
pub mod movement;
pub mod prepend;
pub mod reset;
pub mod sheet;
pub mod slice;
pub mod trim;
pub mod update;

use std::fmt;

use magic_string_sys::Answer;

use crate::{Chunks, Refusal, ffi::Answered, layout::*, memory::Memory};

/// A text and the edits made on it: document 01's desk.
///
/// It owns its source and its tables, some 73 kB on the heap. Two are equal if
/// they are the same desk: the same source, and the same texts at the same places and
/// the same chunks frozen, wherever they lie in memory.
#[derive(Clone)]
pub struct MagicString {
  memory: Memory,
  /// Of the last edit.
  cuts: u32,
}

impl Default for MagicString {
  fn default() -> Self {
    MagicString::new("").expect("an empty source can be opened")
  }
}

/// Opening.
impl MagicString {
  /// A fresh desk over the source.
  ///
  /// # Errors
  /// [`Refusal::Limit`] for more than 16,384 bytes.
  ///
  /// # Example
  /// ```
  /// use magic_string::{MagicString, Refusal};
  /// assert_eq!(MagicString::new("abc").unwrap().to_string(), "abc");
  /// assert_eq!(MagicString::new("a".repeat(16_385)), Err(Refusal::Limit));
  /// ```
  pub fn new(source: impl Into<String>) -> Result<Self, Refusal> {
    Self::from_utf8(source.into())
  }

  /// A fresh desk over bytes that may not be UTF-8.
  ///
  /// # Errors
  /// [`Refusal::Limit`] for more than 16,384 bytes, then [`Refusal::NotUtf8`].
  pub fn from_utf8(source: impl Into<Vec<u8>>) -> Result<Self, Refusal> {
    let mut memory = Memory::new(source.into());
    memory.open()?;
    Ok(Self { memory, cuts: 0 })
  }

  /// The desk that this memory holds; docs/LAYOUT.md has its words. What
  /// [`Self::tables`] gives is such memory.
  ///
  /// # Errors
  /// [`Refusal::NotWellFormed`] if it holds none.
  pub fn from_tables(
    source: impl Into<Vec<u8>>,
    chunks: impl Into<Vec<u32>>,
    pieces: impl Into<Vec<u32>>,
    store: impl Into<Vec<u8>>,
  ) -> Result<Self, Refusal> {
    let memory = Memory {
      source: source.into().into(),
      chunks: chunks.into().into(),
      pieces: pieces.into().into(),
      store: store.into().into(),
    };
    memory.well_formed()?;
    Ok(Self { memory, cuts: 0 })
  }
}

/// What stands on the desk.
impl MagicString {
  /// The text that the desk was opened with.
  pub fn source(&self) -> &str {
    self.memory.source()
  }

  /// The texts before all chunks: what `prepend` adds to.
  pub fn intro(&self) -> Vec<&str> {
    self.memory.list(0, INTRO_AT, INTRO_N)
  }

  /// The texts behind all chunks: what `append` adds to.
  pub fn outro(&self) -> Vec<&str> {
    self.memory.list(0, OUTRO_AT, OUTRO_N)
  }

  /// The chunks in list order, which is the order of the output.
  ///
  /// # Example
  /// An insertion cuts the chunk that holds its position:
  /// ```
  /// use magic_string::{End, MagicString, Side, Span};
  ///
  /// //                            0123456
  /// let mut s = MagicString::new("abcdefg").unwrap();
  /// assert_eq!(s.chunks().count(), 1);
  ///
  /// s.insert(3, "|", Side::Left, End::Back).unwrap();
  /// let [first, second] = &s.chunks().collect::<Vec<_>>()[..] else { panic!() };
  /// assert_eq!((first.span, first.span.text(s.source())), (Span(0, 3), "abc"));
  /// assert_eq!((second.span, second.span.text(s.source())), (Span(3, 7), "defg"));
  /// assert_eq!(first.outro, ["|"]);
  /// ```
  pub fn chunks(&self) -> Chunks<'_> {
    Chunks::new(&self.memory)
  }

  /// How many cuts the last edit made that remain, whether it was accepted or refused: how
  /// many chunks more the desk has by it. A cut makes two chunks of the one that it falls
  /// into. It makes none where a chunk ends already, at 0, and at the end of the source or
  /// past it.
  ///
  /// It is at most 1 for an insertion, 2 for a removal, replacement, reset or freezing, 3 for
  /// a move, and for an indent one for each line that it indents; 0 for any other edit. It is 0
  /// after a refusal that leaves the desk as it was, and so after [`Refusal::Limit`]. Of
  /// [`Self::join`] it counts the cuts of all calls together.
  ///
  /// Reports do not change it. It is 0 until the first edit is made on this `MagicString`:
  /// on one that was opened, or made by [`Self::from_tables`] or [`Self::run_sheet`]. A
  /// clone begins with that of its original, and `==` does not look at it.
  ///
  /// # Example
  /// ```
  /// use magic_string::{MagicString, Refusal};
  /// let mut s = MagicString::new("abcdef").unwrap();
  /// assert_eq!(s.cuts(), 0);
  /// assert_eq!(s.update(2, 4, "X").unwrap().cuts(), 2);
  /// // A chunk ends at 4 already.
  /// assert_eq!(s.remove(4, 5).unwrap().cuts(), 1);
  /// // The cut at 1 is made and stays; the one at 3, inside the X, is refused.
  /// assert_eq!(s.remove(1, 3).err(), Some(Refusal::CutInReplacement));
  /// assert_eq!(s.cuts(), 1);
  /// assert_eq!(s.append("!").unwrap().cuts(), 0);
  /// ```
  pub fn cuts(&self) -> usize {
    self.cuts as usize
  }

  /// The memory as it stands: chunks, pieces, store.
  pub fn tables(&self) -> (&[u32], &[u32], &[u8]) {
    (&self.memory.chunks, &self.memory.pieces, &self.memory.store)
  }
}

/// Edits and the join stand in files of their own; each is made here, and so are the calls
/// on a record.
impl MagicString {
  pub(crate) fn edit(
    &mut self,
    call: impl FnOnce(&mut Memory) -> Answer,
  ) -> Result<&mut Self, Refusal> {
    let Answer { number, value } = call(&mut self.memory);
    self.cuts = value;
    Refusal::answer(number)?;
    Ok(self)
  }

  /// The memory, for calls that do not change the desk.
  pub(crate) fn memory(&self) -> &Memory {
    &self.memory
  }
}

/// Reports on the output. None can be refused, since the desk is well formed and
/// the wrapper's buffers are long enough.
impl MagicString {
  /// Bytes of the chunks' output, without the whole's intro and outro.
  pub fn len(&self) -> usize {
    reported(self.memory.len()) as usize
  }

  /// The same in UTF-16 code units.
  pub fn len_utf16(&self) -> usize {
    reported(self.memory.len_utf16()) as usize
  }

  /// The lines of the output, what `to_string().lines().count()` gives: its line feeds,
  /// and one more if it is not empty and does not end in one. A carriage return is a byte
  /// like any other.
  ///
  /// # Example
  /// ```
  /// # use magic_string::MagicString;
  /// assert_eq!(MagicString::default().line_count(), 0);
  ///
  /// let mut s = MagicString::new("a\nb").unwrap();
  /// assert_eq!(s.line_count(), 2);
  /// s.append("\n").unwrap();
  /// assert_eq!(s.line_count(), 2);
  /// s.append("\r").unwrap();
  /// assert_eq!(s.line_count(), 3);
  /// assert_eq!(s.to_string().lines().count(), 3);
  /// ```
  pub fn line_count(&self) -> usize {
    reported(self.memory.line_count()) as usize
  }

  /// Whether the chunks' output is white space or empty.
  pub fn is_empty(&self) -> bool {
    reported(self.memory.is_empty()) != 0
  }

  /// Whether the output differs from the source.
  pub fn has_changed(&self) -> bool {
    reported(self.memory.has_changed()) != 0
  }

  /// The last character, looking at the last piece of each list alone.
  ///
  /// # Example
  /// ```
  /// # use magic_string::MagicString;
  /// let mut s = MagicString::new("abc").unwrap();
  /// s.append("x").unwrap();
  /// assert_eq!(s.last_char(), Some('x'));
  /// s.append("").unwrap();
  /// assert_eq!(s.last_char(), Some('c'));
  /// ```
  pub fn last_char(&self) -> Option<char> {
    char::from_u32(reported(self.memory.last_char()))
  }

  /// The output behind its last line feed.
  pub fn last_line(&self) -> String {
    reported(self.text(Memory::last_line))
  }

  /// Whether a replaced chunk has the whole range. Any two numbers may be given.
  pub fn is_range_within_edited_chunk(&self, start: u32, end: u32) -> bool {
    reported(self.memory.is_range_within_edited_chunk(start, end)) != 0
  }

  /// Writes the output to the front of `out` and gives its length.
  /// `to_string` gives it as a `String`.
  ///
  /// # Errors
  /// [`Refusal::ShortBuffer`]; then nothing is written.
  pub fn write_to(&self, out: &mut [u8]) -> Result<usize, Refusal> {
    Ok(self.memory.to_string(out)? as usize)
  }

  /// What a call writes, with a buffer that is long enough for any: no output is
  /// longer than the source and the store, and no indent string than one of them.
  fn text(&self, call: impl FnOnce(&Memory, &mut [u8]) -> Answered) -> Result<String, Refusal> {
    let mut out = vec![0; self.memory.source.len() + STORE_BYTES];
    let length = call(&self.memory, &mut out)?;
    out.truncate(length as usize);
    out.shrink_to_fit();
    Ok(String::from_utf8(out).expect("what a desk writes is UTF-8"))
  }
}

/// The answer of a report that cannot be refused.
fn reported<T>(answer: Result<T, Refusal>) -> T {
  answer.expect("the desk is well formed and the buffer is long enough")
}

/// The output.
impl fmt::Display for MagicString {
  fn fmt(&self, out: &mut fmt::Formatter) -> fmt::Result {
    out.pad(&reported(self.text(Memory::to_string)))
  }
}

/// What stands on the desk, not the words of its tables.
impl fmt::Debug for MagicString {
  fn fmt(&self, out: &mut fmt::Formatter) -> fmt::Result {
    out
      .debug_struct("MagicString")
      .field("source", &self.source())
      .field("intro", &self.intro())
      .field("chunks", &self.chunks())
      .field("outro", &self.outro())
      .finish()
  }
}

impl PartialEq for MagicString {
  fn eq(&self, other: &Self) -> bool {
    self.source() == other.source()
      && self.intro() == other.intro()
      && self.outro() == other.outro()
      && self.chunks().eq(other.chunks())
  }
}

impl Eq for MagicString {}
