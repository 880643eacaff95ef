//! A script's line as a call.

use std::str::SplitWhitespace;

use crate::{Call, Setting, hex};

/// The call on a line; none for a blank line or a comment (`#`).
pub fn parse(line: &str) -> Result<Option<Call>, String> {
  let mut words = Words(line.split_whitespace());
  let Some(name) = words.0.next().filter(|name| !name.starts_with('#')) else {
    return Ok(None);
  };
  let call = words.call(name)?;
  match words.0.next() {
    None => Ok(Some(call)),
    Some(word) => Err(format!("{name}: {word} is one argument too many")),
  }
}

/// The arguments still to be read.
struct Words<'a>(SplitWhitespace<'a>);

impl Words<'_> {
  // Fields are read in the order in which they are written here.
  fn call(&mut self, name: &str) -> Result<Call, String> {
    Ok(match name {
      "open" => Call::Open { source: self.text()? },
      // `open_repeat BYTE COUNT`: a long source on a short line.
      "open_repeat" => {
        let byte = self.text()?;
        Call::Open { source: byte.repeat(self.number()? as usize) }
      }
      "remove" => Call::Remove { start: self.number()?, end: self.number()? },
      "update_with" => Call::UpdateWith {
        start: self.number()?,
        end: self.number()?,
        overwrite: self.number()?,
        text: self.text()?,
      },
      "reset" => Call::Reset { start: self.number()?, end: self.number()? },
      "append" => Call::Append { text: self.text()? },
      "prepend" => Call::Prepend { text: self.text()? },
      "relocate" => {
        Call::Relocate { start: self.number()?, end: self.number()?, to: self.number()? }
      }
      "trim" => Call::Trim { pattern: self.number()? },
      "trim_start" => Call::TrimStart { pattern: self.number()? },
      "trim_end" => Call::TrimEnd { pattern: self.number()? },
      "trim_lines" => Call::TrimLines,
      "indent_with" => Call::IndentWith {
        indentor: self.or_none(Self::text)?,
        exclude: std::iter::from_fn(|| self.last_number().transpose()).collect::<Result<_, _>>()?,
      },
      "freeze" => Call::Freeze { start: self.number()?, end: self.number()? },
      "slice" => Call::Slice {
        start: self.number()?,
        end: self.or_none(Self::number)?,
        room: self.last_number()?,
      },
      "to_string" => Call::ToString { room: self.last_number()? },
      "last_line" => Call::LastLine { room: self.last_number()? },
      "get_indent_string" => Call::GetIndentString { room: self.last_number()? },
      "len" => Call::Len,
      "len_utf16" => Call::LenUtf16,
      "line_count" => Call::LineCount,
      "is_empty" => Call::IsEmpty,
      "has_changed" => Call::HasChanged,
      "last_char" => Call::LastChar,
      "is_range_within_edited_chunk" => {
        Call::IsRangeWithinEditedChunk { start: self.number()?, end: self.number()? }
      }
      "dump" => Call::Dump,
      _ => {
        let setting = Setting::named(name).ok_or_else(|| format!("no call named {name}"))?;
        Call::Insert { at: self.number()?, text: self.text()?, setting }
      }
    })
  }

  fn word(&mut self) -> Result<&str, String> {
    self.0.next().ok_or_else(|| "an argument is missing".to_string())
  }

  fn number(&mut self) -> Result<u32, String> {
    let word = self.word()?;
    word.parse().map_err(|_| format!("{word} is not a 32-bit number"))
  }

  fn text(&mut self) -> Result<Vec<u8>, String> {
    let word = self.word()?;
    hex::decode(word).ok_or_else(|| format!("{word} is not a text in hexadecimal"))
  }

  /// An argument that may be `none`.
  fn or_none<T>(&mut self, read: fn(&mut Self) -> Result<T, String>) -> Result<Option<T>, String> {
    match self.0.clone().next() {
      Some("none") => self.word().map(|_| None),
      _ => read(self).map(Some),
    }
  }

  /// A number that may be left out at the end of the line.
  fn last_number(&mut self) -> Result<Option<u32>, String> {
    match self.0.clone().next() {
      None => Ok(None),
      Some(_) => self.number().map(Some),
    }
  }
}
