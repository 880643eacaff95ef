//! Readable scripts for sheets: a source and the calls to be made on it, in bytes
//! (`include/magic_string.h` has their form). [`to_sheet`] makes a sheet of a script,
//! [`to_script`] a script of a sheet.
//!
//! A script has a line for each call, with the call's name, its positions and its
//! text. First comes the source: one text, or several, one behind the other.
//!
//! ```text
//! # Blank lines, and what follows a # outside a text, are passed over.
//! source "Wind north,\n"
//! source "12 knots"
//!
//! remove 4 10
//! update 12 14 "15"            # with overwrite
//! reset 4 10
//! append_left 14 " to 20"
//! append_right 12 "about "
//! prepend_left 14 "!"
//! prepend_right 12 "now "
//! relocate 12 20 0
//! ```
//!
//! A text stands between quotes. It may have `\n`, `\t`, `\r`, `\"`, `\\` and, for any
//! byte, `\x` with two hexadecimal digits. A position is a decimal number of 32 bits.
//!
//! What makes a sheet that the library refuses with 16 cannot be written. What it
//! refuses later can: a source that is too long or not UTF-8, and calls of all kinds.
//!
//! ```
//! let sheet = sheet_script::to_sheet(b"source \"abc\"\nrelocate 0 2 3\n").unwrap();
//! assert_eq!(sheet, b"\x01\0\x03abc\0\x0D\x08\0\0\0\0\0\0\0\x02\0\0\0\x03");
//! let script = sheet_script::to_script(&sheet).unwrap();
//! assert_eq!(script, "source \"abc\"\nrelocate 0 2 3\n");
//!
//! let error = sheet_script::to_sheet(b"source \"abc\"\nremove 0\n").unwrap_err();
//! assert_eq!(error.to_string(), "line 2: remove takes two positions");
//! ```
//!
//! A list is the calls alone, for a desk that is there already: two such lists may be
//! joined. Its script has no source. [`to_list`] makes a list of a script,
//! [`list_to_script`] a script of a list.
//!
//! ```
//! let list = sheet_script::to_list(b"relocate 0 2 3\n").unwrap();
//! assert_eq!(list, b"\0\x0D\x08\0\0\0\0\0\0\0\x02\0\0\0\x03");
//! assert_eq!(sheet_script::list_to_script(&list).unwrap(), "relocate 0 2 3\n");
//!
//! let error = sheet_script::to_list(b"source \"abc\"\n").unwrap_err();
//! assert_eq!(error.to_string(), "line 1: a list has no source");
//! ```
//!
//! A [`Record`] is one call of a sheet; [`records`] reads those that stand one behind the
//! other, and [`list`] those of a list.
//!
//! ```
//! use sheet_script::{Kind, Record, records};
//!
//! let record = Record { kind: Kind::Relocate, positions: vec![0, 2, 3], text: b"" };
//! let bytes = record.bytes().unwrap();
//! assert_eq!(bytes, b"\0\x0D\x08\0\0\0\0\0\0\0\x02\0\0\0\x03");
//! assert_eq!(records(&bytes).unwrap(), [record]);
//! ```

mod error;
mod kind;
mod line;
mod new_list;
mod new_records;
mod new_sheet;
mod read;
mod record;
mod text;

pub mod limits;

pub use error::{ScriptError, SheetError};
pub use kind::Kind;
pub use read::{list, records};
pub use record::Record;

use line::Line;
use new_list::NewList;
use new_sheet::NewSheet;

/// The sheet of a script.
///
/// # Errors
/// The first line that is no line of a script, or with which the sheet would break a
/// [limit](limits).
pub fn to_sheet(script: &[u8]) -> Result<Vec<u8>, ScriptError> {
  let mut sheet = NewSheet::default();
  let line = each_line(script, |line| sheet.add(line))?;
  sheet.bytes().map_err(|what| ScriptError { line, what })
}

/// The list of a script without a source.
///
/// # Errors
/// The first line that is no call, or with which the list would break a
/// [limit](limits).
pub fn to_list(script: &[u8]) -> Result<Vec<u8>, ScriptError> {
  let mut list = NewList::default();
  each_line(script, |line| list.add(line))?;
  Ok(list.bytes())
}

/// Adds what each line of a script says, and gives the last line's number.
fn each_line(
  script: &[u8],
  mut add: impl FnMut(&Line) -> Result<(), String>,
) -> Result<usize, ScriptError> {
  let mut number = 0;
  for line in script.split(|&byte| byte == b'\n') {
    number += 1;
    let added = line::read(line).and_then(|line| add(&line));
    added.map_err(|what| ScriptError { line: number, what })?;
  }
  Ok(number)
}

/// A script of this sheet: [`to_sheet`] makes the same bytes of it.
///
/// # Errors
/// The first place at which the sheet breaks the rules of its form.
pub fn to_script(sheet: &[u8]) -> Result<String, SheetError> {
  let sheet = read::sheet(sheet)?;
  Ok(line::of_source(sheet.source) + &lines(&sheet.records))
}

/// A script of this list: [`to_list`] makes the same bytes of it.
///
/// # Errors
/// As [`list`].
pub fn list_to_script(list: &[u8]) -> Result<String, SheetError> {
  Ok(lines(&read::list(list)?))
}

/// A line for each record.
fn lines(records: &[Record]) -> String {
  records.iter().map(|record| format!("{record}\n")).collect()
}
