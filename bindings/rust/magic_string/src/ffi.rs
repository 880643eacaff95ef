//! A safe method of `Memory` for each exported function.
//!
//! The crate's only unsafe code is here. It is sound since each address comes with
//! the length of the slice that it is of, the slices are borrowed for the call, those
//! that are written lie apart from all others, and the functions work on any content,
//! stay within the lengths and keep nothing.
#![allow(unsafe_code)]

use magic_string_sys::{
  Answer, edit, magic_string_entry, magic_string_marked_entry, magic_string_run_sheet,
  magic_string_set_marks, magic_string_total, report,
};

use crate::{Refusal, filed::Filed, memory::Memory};

/// The value of a call that was done; a refused one has none.
pub type Answered = Result<u32, Refusal>;

fn answered(answer: Answer) -> Answered {
  Refusal::answer(answer.number).map(|()| answer.value)
}

/// Opening.
impl Memory {
  pub fn open(&mut self) -> Answered {
    answered(unsafe { edit!(self, magic_string_open) })
  }
}

/// Edits. Their value, the cuts that remain, counts after a refusal too.
impl Memory {
  pub fn remove(&mut self, start: u32, end: u32) -> Answer {
    unsafe { edit!(self, magic_string_remove, start, end) }
  }

  pub fn update_with(&mut self, start: u32, end: u32, text: &[u8], overwrite: bool) -> Answer {
    let (text, text_len, overwrite) = (text.as_ptr(), text.len(), overwrite.into());
    unsafe { edit!(self, magic_string_update_with, start, end, text, text_len, overwrite) }
  }

  pub fn reset(&mut self, start: u32, end: u32) -> Answer {
    unsafe { edit!(self, magic_string_reset, start, end) }
  }

  pub fn insert(&mut self, at: u32, text: &[u8], left: bool, front: bool) -> Answer {
    let (text, text_len, left, front) = (text.as_ptr(), text.len(), left.into(), front.into());
    unsafe { edit!(self, magic_string_insert, at, text, text_len, left, front) }
  }

  pub fn append(&mut self, text: &str) -> Answer {
    unsafe { edit!(self, magic_string_append, text.as_ptr(), text.len()) }
  }

  pub fn prepend(&mut self, text: &str) -> Answer {
    unsafe { edit!(self, magic_string_prepend, text.as_ptr(), text.len()) }
  }

  pub fn relocate(&mut self, start: u32, end: u32, to: u32) -> Answer {
    unsafe { edit!(self, magic_string_relocate, start, end, to) }
  }

  pub fn trim(&mut self, pattern: u32) -> Answer {
    unsafe { edit!(self, magic_string_trim, pattern) }
  }

  pub fn trim_start(&mut self, pattern: u32) -> Answer {
    unsafe { edit!(self, magic_string_trim_start, pattern) }
  }

  pub fn trim_end(&mut self, pattern: u32) -> Answer {
    unsafe { edit!(self, magic_string_trim_end, pattern) }
  }

  pub fn trim_lines(&mut self) -> Answer {
    unsafe { edit!(self, magic_string_trim_lines) }
  }

  pub fn indent_with(&mut self, indentor: Option<&str>, exclude: &[u32]) -> Answer {
    let text = indentor.unwrap_or_default();
    unsafe {
      edit!(
        self,
        magic_string_indent_with,
        indentor.is_some().into(),
        text.as_ptr(),
        text.len(),
        exclude.as_ptr(),
        exclude.len()
      )
    }
  }
}

/// A sheet.
impl Memory {
  /// Runs a sheet on the tables, whatever they hold, and gives how many answers it
  /// wrote. The source here is not looked at: that of the desk then is the sheet's.
  pub fn run_sheet(&mut self, sheet: &[u8], answers: &mut [u8]) -> Answered {
    answered(unsafe {
      magic_string_run_sheet(
        sheet.as_ptr(),
        sheet.len(),
        self.chunks.as_mut_ptr(),
        self.chunks.len(),
        self.pieces.as_mut_ptr(),
        self.pieces.len(),
        self.store.as_mut_ptr(),
        self.store.len(),
        answers.as_mut_ptr(),
        answers.len(),
      )
    })
  }
}

/// Two lists of calls.
impl Memory {
  /// Makes the calls of both lists, which are records of a sheet, if they join.
  pub fn join(&mut self, first: &[u8], second: &[u8]) -> Answer {
    unsafe {
      edit!(self, magic_string_join, first.as_ptr(), first.len(), second.as_ptr(), second.len())
    }
  }
}

/// A record of filed calls.
impl Memory {
  /// Makes the call of a sheet's record and files it. The value, its cuts, counts after a
  /// refusal too.
  pub fn file(&mut self, filed: &mut Filed, call: &[u8]) -> Answer {
    let Filed { words, bytes } = filed;
    unsafe {
      edit!(
        self,
        magic_string_file,
        words.as_mut_ptr(),
        words.len(),
        bytes.as_mut_ptr(),
        bytes.len(),
        call.as_ptr(),
        call.len()
      )
    }
  }

  /// Takes the k-th filed call out, and makes the others on the kept desk.
  pub fn withdraw(&mut self, filed: &mut Filed, k: u32) -> Answer {
    let Filed { words, bytes } = filed;
    unsafe {
      edit!(
        self,
        magic_string_withdraw,
        words.as_mut_ptr(),
        words.len(),
        bytes.as_mut_ptr(),
        bytes.len(),
        k
      )
    }
  }

  /// Freezes a range, if no call is filed in the record, which is only read. The value, its
  /// cuts, counts after a refusal too.
  pub fn freeze(&mut self, filed: &Filed, start: u32, end: u32) -> Answer {
    let Filed { words, bytes } = filed;
    unsafe {
      edit!(
        self,
        magic_string_freeze,
        words.as_ptr(),
        words.len(),
        bytes.as_ptr(),
        bytes.len(),
        start,
        end
      )
    }
  }
}

/// Calls a function that reads a record over the source of `$memory`; its own arguments
/// follow.
macro_rules! reading {
  ($memory:ident, $filed:ident, $name:ident $(, $argument:expr)*) => {
    $name(
      $memory.source.as_ptr(), $memory.source.len(),
      $filed.words.as_ptr(), $filed.words.len(),
      $filed.bytes.as_ptr(), $filed.bytes.len()
      $(, $argument)*
    )
  };
}

/// The entries of a record and their marks. The tables are not lent.
impl Memory {
  /// Writes the marks of the k-th filed call: the examiner's.
  pub fn set_marks(&self, filed: &mut Filed, k: u32, marks: u32) -> Answered {
    let Filed { words, bytes } = filed;
    answered(unsafe {
      magic_string_set_marks(
        self.source.as_ptr(),
        self.source.len(),
        words.as_ptr(),
        words.len(),
        bytes.as_mut_ptr(),
        bytes.len(),
        k,
        marks,
      )
    })
  }

  /// Writes the k-th filed call, as a record of a sheet, and its answer to `out`.
  pub fn entry(&self, filed: &Filed, k: u32, out: &mut [u8]) -> Answered {
    answered(unsafe { reading!(self, filed, magic_string_entry, k, out.as_mut_ptr(), out.len()) })
  }

  /// The same, and its marks: the examiner's.
  pub fn marked_entry(&self, filed: &Filed, k: u32, out: &mut [u8]) -> Answered {
    answered(unsafe {
      reading!(self, filed, magic_string_marked_entry, k, out.as_mut_ptr(), out.len())
    })
  }

  /// The sum of the marks: the examiner's.
  pub fn total(&self, filed: &Filed) -> Answered {
    answered(unsafe { reading!(self, filed, magic_string_total) })
  }
}

/// Reports. Those that fill `out` give how many bytes they wrote.
impl Memory {
  pub fn well_formed(&self) -> Answered {
    answered(unsafe { report!(self, magic_string_well_formed) })
  }

  pub fn to_string(&self, out: &mut [u8]) -> Answered {
    answered(unsafe { report!(self, magic_string_to_string, out.as_mut_ptr(), out.len()) })
  }

  pub fn slice(&self, start: u32, end: Option<u32>, out: &mut [u8]) -> Answered {
    let (has_end, end) = (end.is_some().into(), end.unwrap_or_default());
    answered(unsafe {
      report!(self, magic_string_slice, start, has_end, end, out.as_mut_ptr(), out.len())
    })
  }

  pub fn last_line(&self, out: &mut [u8]) -> Answered {
    answered(unsafe { report!(self, magic_string_last_line, out.as_mut_ptr(), out.len()) })
  }

  pub fn get_indent_string(&self, out: &mut [u8]) -> Answered {
    answered(unsafe { report!(self, magic_string_get_indent_string, out.as_mut_ptr(), out.len()) })
  }

  pub fn len(&self) -> Answered {
    answered(unsafe { report!(self, magic_string_len) })
  }

  pub fn len_utf16(&self) -> Answered {
    answered(unsafe { report!(self, magic_string_len_utf16) })
  }

  pub fn line_count(&self) -> Answered {
    answered(unsafe { report!(self, magic_string_line_count) })
  }

  pub fn is_empty(&self) -> Answered {
    answered(unsafe { report!(self, magic_string_is_empty) })
  }

  pub fn has_changed(&self) -> Answered {
    answered(unsafe { report!(self, magic_string_has_changed) })
  }

  pub fn is_range_within_edited_chunk(&self, start: u32, end: u32) -> Answered {
    answered(unsafe { report!(self, magic_string_is_range_within_edited_chunk, start, end) })
  }

  pub fn last_char(&self) -> Answered {
    answered(unsafe { report!(self, magic_string_last_char) })
  }
}
