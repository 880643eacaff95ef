//! The calls on a desk, their arguments by kind, and their printed form.

use std::fmt;

use crate::{Setting, hex};

/// One call. Texts are any bytes. `room` is the length of the lent buffer, long
/// enough if `None`. `Freeze` is document 02's, with no call filed. `Dump` is not a call of document 01: it shows the desk itself.
#[derive(Debug, Clone, PartialEq, Eq)]
pub enum Call {
  Open { source: Vec<u8> },
  Remove { start: u32, end: u32 },
  UpdateWith { start: u32, end: u32, overwrite: u32, text: Vec<u8> },
  Reset { start: u32, end: u32 },
  Insert { at: u32, text: Vec<u8>, setting: Setting },
  Append { text: Vec<u8> },
  Prepend { text: Vec<u8> },
  Relocate { start: u32, end: u32, to: u32 },
  Trim { pattern: u32 },
  TrimStart { pattern: u32 },
  TrimEnd { pattern: u32 },
  TrimLines,
  IndentWith { indentor: Option<Vec<u8>>, exclude: Vec<u32> },
  Freeze { start: u32, end: u32 },
  Slice { start: u32, end: Option<u32>, room: Option<u32> },
  ToString { room: Option<u32> },
  LastLine { room: Option<u32> },
  GetIndentString { room: Option<u32> },
  Len,
  LenUtf16,
  LineCount,
  IsEmpty,
  HasChanged,
  LastChar,
  IsRangeWithinEditedChunk { start: u32, end: u32 },
  Dump,
}

impl Call {
  /// Whether the call changes desks; the others report.
  pub fn is_edit(&self) -> bool {
    use Call::*;
    match self {
      Open { .. } | Remove { .. } | UpdateWith { .. } | Reset { .. } => true,
      Insert { .. } | Append { .. } | Prepend { .. } | Relocate { .. } => true,
      Trim { .. } | TrimStart { .. } | TrimEnd { .. } | TrimLines | IndentWith { .. } => true,
      Freeze { .. } => true,
      Slice { .. } | ToString { .. } | LastLine { .. } | GetIndentString { .. } => false,
      Len | LenUtf16 | LineCount | IsEmpty | HasChanged | LastChar => false,
      IsRangeWithinEditedChunk { .. } | Dump => false,
    }
  }

  /// The text that must be UTF-8, if the call has one.
  pub fn text(&self) -> Option<&[u8]> {
    use Call::*;
    match self {
      UpdateWith { text, .. } | Insert { text, .. } => Some(text),
      Append { text } | Prepend { text } => Some(text),
      IndentWith { indentor, .. } => indentor.as_deref(),
      _ => None,
    }
  }

  /// The same to be changed.
  pub fn text_mut(&mut self) -> Option<&mut Vec<u8>> {
    use Call::*;
    match self {
      UpdateWith { text, .. } | Insert { text, .. } => Some(text),
      Append { text } | Prepend { text } => Some(text),
      IndentWith { indentor, .. } => indentor.as_mut(),
      _ => None,
    }
  }

  /// The positions that must not lie inside a character: all but those of the
  /// range report.
  pub fn positions(&self) -> Vec<u32> {
    use Call::*;
    match *self {
      Remove { start, end } | UpdateWith { start, end, .. } | Reset { start, end } => {
        vec![start, end]
      }
      Freeze { start, end } => vec![start, end],
      Insert { at, .. } => vec![at],
      Relocate { start, end, to } => vec![start, end, to],
      IndentWith { ref exclude, .. } => exclude.clone(),
      Slice { start, end, .. } => [start].into_iter().chain(end).collect(),
      _ => Vec::new(),
    }
  }

  /// The length of the lent buffer, if the call has one.
  pub fn room_mut(&mut self) -> Option<&mut Option<u32>> {
    use Call::*;
    match self {
      Slice { room, .. } | ToString { room } | LastLine { room } | GetIndentString { room } => {
        Some(room)
      }
      _ => None,
    }
  }
}

/// The line that `parse` reads back.
impl fmt::Display for Call {
  fn fmt(&self, out: &mut fmt::Formatter) -> fmt::Result {
    use Call::*;
    match self {
      Open { source } => write!(out, "open {}", hex::encode(source)),
      Remove { start, end } => write!(out, "remove {start} {end}"),
      UpdateWith { start, end, overwrite, text } => {
        write!(out, "update_with {start} {end} {overwrite} {}", hex::encode(text))
      }
      Reset { start, end } => write!(out, "reset {start} {end}"),
      Insert { at, text, setting } => {
        write!(out, "{} {at} {}", setting.name(), hex::encode(text))
      }
      Append { text } => write!(out, "append {}", hex::encode(text)),
      Prepend { text } => write!(out, "prepend {}", hex::encode(text)),
      Relocate { start, end, to } => write!(out, "relocate {start} {end} {to}"),
      Trim { pattern } => write!(out, "trim {pattern}"),
      TrimStart { pattern } => write!(out, "trim_start {pattern}"),
      TrimEnd { pattern } => write!(out, "trim_end {pattern}"),
      TrimLines => write!(out, "trim_lines"),
      IndentWith { indentor, exclude } => {
        let indentor = indentor.as_ref().map_or("none".to_string(), |text| hex::encode(text));
        write!(out, "indent_with {indentor}")?;
        exclude.iter().try_for_each(|position| write!(out, " {position}"))
      }
      Freeze { start, end } => write!(out, "freeze {start} {end}"),
      Slice { start, end, room } => {
        let end = end.map_or("none".to_string(), |end| end.to_string());
        write!(out, "slice {start} {end}{}", Room(*room))
      }
      ToString { room } => write!(out, "to_string{}", Room(*room)),
      LastLine { room } => write!(out, "last_line{}", Room(*room)),
      GetIndentString { room } => write!(out, "get_indent_string{}", Room(*room)),
      Len => write!(out, "len"),
      LenUtf16 => write!(out, "len_utf16"),
      LineCount => write!(out, "line_count"),
      IsEmpty => write!(out, "is_empty"),
      HasChanged => write!(out, "has_changed"),
      LastChar => write!(out, "last_char"),
      IsRangeWithinEditedChunk { start, end } => {
        write!(out, "is_range_within_edited_chunk {start} {end}")
      }
      Dump => write!(out, "dump"),
    }
  }
}

/// A buffer's length as a last argument, or nothing.
struct Room(Option<u32>);

impl fmt::Display for Room {
  fn fmt(&self, out: &mut fmt::Formatter) -> fmt::Result {
    self.0.map_or(Ok(()), |room| write!(out, " {room}"))
  }
}
