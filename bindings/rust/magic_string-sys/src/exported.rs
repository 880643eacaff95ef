//! The declarations, and a macro for each way to lend a desk.

use crate::Answer;

/// Declares functions that take the source and the tables first, and their own
/// arguments behind them: those among the edits write the tables, reports read them.
/// Readings take a record in the place of the tables, and read it. The others take just the
/// arguments that are written here. A slice passes as its address and its length in
/// elements.
macro_rules! exported {
  (
    edits { $($(#[$of_edit:meta])* $edit:ident($($edits_argument:ident: $edits_type:ty),*);)* }
    reports { $($(#[$of_report:meta])* $report:ident($($argument:ident: $type:ty),*);)* }
    readings { $($(#[$of_read:meta])* $read:ident($($reads_argument:ident: $reads_type:ty),*);)* }
    others { $($(#[$of_other:meta])* $other:ident($($others_argument:ident: $others_type:ty),*);)* }
  ) => {
    unsafe extern "C" {
      $($(#[$of_edit])* pub fn $edit(
        source: *const u8, source_len: usize,
        chunks: *mut u32, chunks_len: usize,
        pieces: *mut u32, pieces_len: usize,
        store: *mut u8, store_len: usize,
        $($edits_argument: $edits_type),*
      ) -> Answer;)*

      $($(#[$of_report])* pub fn $report(
        source: *const u8, source_len: usize,
        chunks: *const u32, chunks_len: usize,
        pieces: *const u32, pieces_len: usize,
        store: *const u8, store_len: usize,
        $($argument: $type),*
      ) -> Answer;)*

      $($(#[$of_read])* pub fn $read(
        source: *const u8, source_len: usize,
        words: *const u32, words_len: usize,
        bytes: *const u8, bytes_len: usize,
        $($reads_argument: $reads_type),*
      ) -> Answer;)*

      $($(#[$of_other])* pub fn $other($($others_argument: $others_type),*) -> Answer;)*
    }

    /// The names of all exported functions.
    pub const NAMES: &[&str] = &[
      $(stringify!($edit),)* $(stringify!($report),)* $(stringify!($read),)*
      $(stringify!($other)),*
    ];
  };
}

exported! {
  edits {
    /// Makes a fresh desk over the source.
    magic_string_open();
    /// Removes the bytes from start up to end.
    magic_string_remove(start: u32, end: u32);
    /// Replaces the bytes from start up to end by the text.
    magic_string_update_with(
      start: u32, end: u32, text: *const u8, text_len: usize, overwrite: u32
    );
    /// Undoes the edits of the bytes from start up to end.
    magic_string_reset(start: u32, end: u32);
    /// Adds a piece at the position: on the side that `left` says, and at the end of the
    /// list there that `front` says.
    magic_string_insert(at: u32, text: *const u8, text_len: usize, left: u32, front: u32);
    /// Adds a piece at the end of the output.
    magic_string_append(text: *const u8, text_len: usize);
    /// Adds a piece at the start of the output.
    magic_string_prepend(text: *const u8, text_len: usize);
    /// Moves the bytes from start up to end before those at `to`.
    magic_string_relocate(start: u32, end: u32, to: u32);
    /// Takes white space or line ends off both ends of the output.
    magic_string_trim(pattern: u32);
    /// The same off the start alone.
    magic_string_trim_start(pattern: u32);
    /// The same off the end alone.
    magic_string_trim_end(pattern: u32);
    /// Takes line ends off both ends of the output.
    magic_string_trim_lines();
    /// Puts the indentor in front of each line.
    magic_string_indent_with(
      has_indentor: u32, indentor: *const u8, indentor_len: usize,
      exclude: *const u32, exclude_len: usize
    );
    /// Makes the calls of both lists, which are records of a sheet, if these pass the
    /// checks of the any-order rule together.
    magic_string_join(
      first: *const u8, first_len: usize, second: *const u8, second_len: usize
    );
    /// Makes the call, in the form of a sheet's record, and files it with its answer.
    magic_string_file(
      words: *mut u32, words_len: usize, bytes: *mut u8, bytes_len: usize,
      call: *const u8, call_len: usize
    );
    /// Takes the k-th filed call out, and makes the others on the kept desk.
    magic_string_withdraw(
      words: *mut u32, words_len: usize, bytes: *mut u8, bytes_len: usize, k: u32
    );
    /// Freezes the bytes from start up to end, if no call is filed in the record, which is
    /// only read.
    magic_string_freeze(
      words: *const u32, words_len: usize, bytes: *const u8, bytes_len: usize,
      start: u32, end: u32
    );
  }
  reports {
    /// Tells whether the memory holds a well-formed desk.
    magic_string_well_formed();
    /// Writes the output.
    magic_string_to_string(out: *mut u8, out_len: usize);
    /// Writes the output of the chunks from start on up to end.
    magic_string_slice(start: u32, has_end: u32, end: u32, out: *mut u8, out_len: usize);
    /// Writes the output behind its last line feed.
    magic_string_last_line(out: *mut u8, out_len: usize);
    /// Writes the indent that the source's lines suggest.
    magic_string_get_indent_string(out: *mut u8, out_len: usize);
    /// The bytes of the chunks' output.
    magic_string_len();
    /// The same in UTF-16 units.
    magic_string_len_utf16();
    /// The line feeds of the output, and one more if it is not empty and does not end in
    /// one.
    magic_string_line_count();
    /// Whether the chunks' output is white space or empty.
    magic_string_is_empty();
    /// Whether the output differs from the source.
    magic_string_has_changed();
    /// Whether the span of one replaced chunk has the range.
    magic_string_is_range_within_edited_chunk(start: u32, end: u32);
    /// The code of the output's last character, or [`NO_CHAR`](crate::layout::NO_CHAR).
    magic_string_last_char();
  }
  readings {
    /// The member's: writes the k-th filed call, in the form of a sheet's record, and its
    /// answer.
    magic_string_entry(k: u32, out: *mut u8, out_len: usize);
    /// The examiner's: writes the same, and the marks.
    magic_string_marked_entry(k: u32, out: *mut u8, out_len: usize);
    /// The examiner's: the sum of the marks of the filed calls.
    magic_string_total();
  }
  others {
    /// The examiner's: writes the marks of the k-th filed call into the record's bytes.
    magic_string_set_marks(
      source: *const u8, source_len: usize,
      words: *const u32, words_len: usize,
      bytes: *mut u8, bytes_len: usize,
      k: u32, marks: u32
    );
    /// Opens the source of a sheet, makes the call of each of its records, and writes
    /// the number of each.
    magic_string_run_sheet(
      sheet: *const u8, sheet_len: usize,
      chunks: *mut u32, chunks_len: usize,
      pieces: *mut u32, pieces_len: usize,
      store: *mut u8, store_len: usize,
      answers: *mut u8, answers_len: usize
    );
  }
}

/// Calls a function that may write the tables of `$memory`, which has the slices
/// `source`, `chunks`, `pieces` and `store`; its own arguments follow. The call is
/// unsafe: it is sound where these are slices that are borrowed for the call and
/// those that are written lie apart, and where each address among the arguments
/// comes with the length of the slice that it is of. The functions work on any
/// content, stay within the lengths and keep nothing.
#[macro_export]
macro_rules! edit {
  ($memory:ident, $name:ident $(, $argument:expr)*) => {
    $crate::$name(
      $memory.source.as_ptr(), $memory.source.len(),
      $memory.chunks.as_mut_ptr(), $memory.chunks.len(),
      $memory.pieces.as_mut_ptr(), $memory.pieces.len(),
      $memory.store.as_mut_ptr(), $memory.store.len()
      $(, $argument)*
    )
  };
}

/// Calls a function that reads the tables of `$memory`: as [`edit!`].
#[macro_export]
macro_rules! report {
  ($memory:ident, $name:ident $(, $argument:expr)*) => {
    $crate::$name(
      $memory.source.as_ptr(), $memory.source.len(),
      $memory.chunks.as_ptr(), $memory.chunks.len(),
      $memory.pieces.as_ptr(), $memory.pieces.len(),
      $memory.store.as_ptr(), $memory.store.len()
      $(, $argument)*
    )
  };
}
