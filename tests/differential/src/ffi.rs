//! A method of `Lent` for each exported function, or of `LentRecord` where it takes no desk.
//! The unsafe code is sound as that of the crate magic_string is: each address comes with the
//! length of a slice that is borrowed for the call, and those that are written lie apart.

use magic_string_sys::{
  edit, magic_string_entry, magic_string_marked_entry, magic_string_set_marks, magic_string_total,
  report,
};

use crate::{Answer, Lent, LentRecord};

/// Edits.
impl Lent<'_> {
  pub fn open(&mut self) -> Answer {
    unsafe { edit!(self, magic_string_open) }
  }

  pub fn remove(&mut self, start: u32, end: u32) -> Answer {
    unsafe { edit!(self, magic_string_remove, start, end) }
  }

  pub fn update_with(&mut self, start: u32, end: u32, text: &[u8], overwrite: u32) -> Answer {
    unsafe {
      edit!(self, magic_string_update_with, start, end, text.as_ptr(), text.len(), overwrite)
    }
  }

  pub fn reset(&mut self, start: u32, end: u32) -> Answer {
    unsafe { edit!(self, magic_string_reset, start, end) }
  }

  pub fn insert(&mut self, at: u32, text: &[u8], left: u32, front: u32) -> Answer {
    unsafe { edit!(self, magic_string_insert, at, text.as_ptr(), text.len(), left, front) }
  }

  pub fn append(&mut self, text: &[u8]) -> Answer {
    unsafe { edit!(self, magic_string_append, text.as_ptr(), text.len()) }
  }

  pub fn prepend(&mut self, text: &[u8]) -> Answer {
    unsafe { edit!(self, magic_string_prepend, text.as_ptr(), text.len()) }
  }

  pub fn relocate(&mut self, start: u32, end: u32, to: u32) -> Answer {
    unsafe { edit!(self, magic_string_relocate, start, end, to) }
  }

  pub fn trim(&mut self, pattern: u32) -> Answer {
    unsafe { edit!(self, magic_string_trim, pattern) }
  }

  pub fn trim_start(&mut self, pattern: u32) -> Answer {
    unsafe { edit!(self, magic_string_trim_start, pattern) }
  }

  pub fn trim_end(&mut self, pattern: u32) -> Answer {
    unsafe { edit!(self, magic_string_trim_end, pattern) }
  }

  pub fn trim_lines(&mut self) -> Answer {
    unsafe { edit!(self, magic_string_trim_lines) }
  }

  pub fn indent_with(&mut self, has_indentor: u32, indentor: &[u8], exclude: &[u32]) -> Answer {
    let (at, len) = (indentor.as_ptr(), indentor.len());
    unsafe {
      edit!(self, magic_string_indent_with, has_indentor, at, len, exclude.as_ptr(), exclude.len())
    }
  }
}

/// Sheets.
impl Lent<'_> {
  /// Runs the sheet that is lent in the source's place.
  pub fn run_sheet(&mut self, answers: &mut [u8]) -> Answer {
    unsafe { edit!(self, magic_string_run_sheet, answers.as_mut_ptr(), answers.len()) }
  }
}

/// Records of filed calls.
impl Lent<'_> {
  pub fn file(&mut self, record: &mut LentRecord, call: &[u8]) -> Answer {
    let LentRecord { words, bytes } = record;
    let (words, words_len) = (words.as_mut_ptr(), words.len());
    let (bytes, bytes_len) = (bytes.as_mut_ptr(), bytes.len());
    let (call, call_len) = (call.as_ptr(), call.len());
    unsafe { edit!(self, magic_string_file, words, words_len, bytes, bytes_len, call, call_len) }
  }

  pub fn withdraw(&mut self, record: &mut LentRecord, k: u32) -> Answer {
    let LentRecord { words, bytes } = record;
    let (words, words_len) = (words.as_mut_ptr(), words.len());
    let (bytes, bytes_len) = (bytes.as_mut_ptr(), bytes.len());
    unsafe { edit!(self, magic_string_withdraw, words, words_len, bytes, bytes_len, k) }
  }
}

/// Frozen parts.
impl Lent<'_> {
  pub fn freeze(&mut self, record: &LentRecord, start: u32, end: u32) -> Answer {
    let LentRecord { words, bytes } = record;
    let (words, words_len) = (words.as_ptr(), words.len());
    let (bytes, bytes_len) = (bytes.as_ptr(), bytes.len());
    unsafe { edit!(self, magic_string_freeze, words, words_len, bytes, bytes_len, start, end) }
  }
}

/// Calls a function that reads a record beside a desk over the source; its own arguments
/// follow.
macro_rules! reading {
  ($record:ident, $source:ident, $name:ident $(, $argument:expr)*) => {
    $name(
      $source.as_ptr(), $source.len(),
      $record.words.as_ptr(), $record.words.len(),
      $record.bytes.as_ptr(), $record.bytes.len()
      $(, $argument)*
    )
  };
}

/// Marks and readings of entries.
impl LentRecord<'_> {
  pub fn set_marks(&mut self, source: &[u8], k: u32, marks: u32) -> Answer {
    let (source, source_len) = (source.as_ptr(), source.len());
    let (words, words_len) = (self.words.as_ptr(), self.words.len());
    let (bytes, bytes_len) = (self.bytes.as_mut_ptr(), self.bytes.len());
    unsafe {
      magic_string_set_marks(source, source_len, words, words_len, bytes, bytes_len, k, marks)
    }
  }

  pub fn entry(&self, source: &[u8], k: u32, out: &mut [u8]) -> Answer {
    unsafe { reading!(self, source, magic_string_entry, k, out.as_mut_ptr(), out.len()) }
  }

  pub fn marked_entry(&self, source: &[u8], k: u32, out: &mut [u8]) -> Answer {
    unsafe { reading!(self, source, magic_string_marked_entry, k, out.as_mut_ptr(), out.len()) }
  }

  pub fn total(&self, source: &[u8]) -> Answer {
    unsafe { reading!(self, source, magic_string_total) }
  }
}

/// Two lists of calls.
impl Lent<'_> {
  pub fn join(&mut self, first: &[u8], second: &[u8]) -> Answer {
    let (first, first_len) = (first.as_ptr(), first.len());
    let (second, second_len) = (second.as_ptr(), second.len());
    unsafe { edit!(self, magic_string_join, first, first_len, second, second_len) }
  }
}

/// Reports. Those that fill `out` answer how many bytes they wrote.
impl Lent<'_> {
  pub fn slice(&self, start: u32, has_end: u32, end: u32, out: &mut [u8]) -> Answer {
    unsafe { report!(self, magic_string_slice, start, has_end, end, out.as_mut_ptr(), out.len()) }
  }

  pub fn to_string(&self, out: &mut [u8]) -> Answer {
    unsafe { report!(self, magic_string_to_string, out.as_mut_ptr(), out.len()) }
  }

  pub fn last_line(&self, out: &mut [u8]) -> Answer {
    unsafe { report!(self, magic_string_last_line, out.as_mut_ptr(), out.len()) }
  }

  pub fn get_indent_string(&self, out: &mut [u8]) -> Answer {
    unsafe { report!(self, magic_string_get_indent_string, out.as_mut_ptr(), out.len()) }
  }

  pub fn len(&self) -> Answer {
    unsafe { report!(self, magic_string_len) }
  }

  pub fn len_utf16(&self) -> Answer {
    unsafe { report!(self, magic_string_len_utf16) }
  }

  pub fn line_count(&self) -> Answer {
    unsafe { report!(self, magic_string_line_count) }
  }

  pub fn is_empty(&self) -> Answer {
    unsafe { report!(self, magic_string_is_empty) }
  }

  pub fn has_changed(&self) -> Answer {
    unsafe { report!(self, magic_string_has_changed) }
  }

  pub fn is_range_within_edited_chunk(&self, start: u32, end: u32) -> Answer {
    unsafe { report!(self, magic_string_is_range_within_edited_chunk, start, end) }
  }

  pub fn last_char(&self) -> Answer {
    unsafe { report!(self, magic_string_last_char) }
  }

  pub fn well_formed(&self) -> Answer {
    unsafe { report!(self, magic_string_well_formed) }
  }
}
