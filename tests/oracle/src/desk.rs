//! A desk: the unchanged `MagicString` with document 01's limits and order of
//! numbers around it, and document 02's marks beside it.

use desk_data::{Counts, DeskData};
use string_wizard::{IndentOptions, MagicString, UpdateOptions};

use crate::{
  Answer, Call,
  frozen::{self, Marks},
  number,
};

/// The desk limits: source bytes, chunks, pieces, and bytes in pieces and
/// replacements.
#[derive(Debug, Clone, Copy, PartialEq, Eq)]
pub struct Limits {
  pub source: usize,
  pub chunks: usize,
  pub pieces: usize,
  pub bytes: usize,
}

impl Limits {
  /// Those of document 01.
  pub const FULL: Limits = Limits { source: 16_384, chunks: 512, pieces: 1_024, bytes: 32_768 };

  /// Those of the source's length alone.
  pub const NONE: Limits =
    Limits { chunks: usize::MAX, pieces: usize::MAX, bytes: usize::MAX, ..Limits::FULL };

  /// Whether a desk that holds this much keeps the limits.
  pub fn hold(&self, counts: Counts) -> bool {
    counts.chunks <= self.chunks && counts.pieces <= self.pieces && counts.bytes <= self.bytes
  }
}

#[derive(Debug, Clone)]
pub struct Desk {
  limits: Limits,
  magic_string: MagicString<'static>,
  marks: Marks,
}

impl Desk {
  /// A fresh desk over the source; 13 for its length, then 1.
  pub fn open(limits: Limits, source: &[u8]) -> Result<Self, u32> {
    if source.len() > limits.source {
      return Err(number::LIMIT);
    }
    let source = str::from_utf8(source).map_err(|_| number::NOT_UTF8)?;
    let (magic_string, marks) = (MagicString::new(source.to_string()), Marks::clear(source));
    Ok(Self { limits, magic_string, marks })
  }

  /// The desk that `data` describes. Its spans must cover the source.
  pub fn build(limits: Limits, data: &DeskData) -> Self {
    Self { limits, magic_string: MagicString::build(data), marks: Marks::of(data) }
  }

  /// The desk as data.
  pub fn data(&self) -> DeskData {
    let mut data = self.magic_string.dump();
    data.chunks.iter_mut().for_each(|chunk| chunk.frozen = self.marks.at(chunk.start));
    data
  }

  pub fn counts(&self) -> Counts {
    self.magic_string.counts()
  }

  pub fn limits(&self) -> Limits {
    self.limits
  }

  pub fn magic_string(&self) -> &MagicString<'static> {
    &self.magic_string
  }

  pub fn marks(&self) -> &Marks {
    &self.marks
  }
}

/// Makes the call. Opening replaces the desk where it is accepted.
pub fn apply(desk: &mut Desk, call: &Call) -> Answer {
  if let Call::Open { source } = call {
    return match Desk::open(desk.limits, source) {
      Ok(opened) => {
        *desk = opened;
        Answer::number(number::ACCEPTED)
      }
      Err(number) => Answer::number(number),
    };
  }
  if let Err(number) = arguments(desk.magic_string.source(), call) {
    return Answer::number(number);
  }
  if frozen::is_of_whole_desk(call) && desk.marks.any() {
    return Answer::number(number::FROZEN);
  }
  if !call.is_edit() {
    return report(desk, call).unwrap_or_else(Answer::number);
  }
  // The Rust works on a copy: 13 is judged on the desk that it leaves, accepted
  // or refused, and keeps the desk as it was.
  let mut left = desk.clone();
  let number = edit(&mut left, call).err().unwrap_or(number::ACCEPTED);
  if !desk.limits.hold(left.counts()) {
    return Answer::number(number::LIMIT);
  }
  // Document 02, L4: the cuts that remain are the chunks that have come in.
  let cuts = left.counts().chunks - desk.counts().chunks;
  *desk = left;
  Answer::edit(number, cuts)
}

/// The numbers that the arguments alone give, in their order: 15, 1, 3.
fn arguments(source: &str, call: &Call) -> Result<(), u32> {
  let option = match call {
    Call::Trim { pattern } | Call::TrimStart { pattern } | Call::TrimEnd { pattern } => {
      *pattern <= 1
    }
    Call::IndentWith { exclude, .. } => exclude.len().is_multiple_of(2),
    _ => true,
  };
  let inside = |&at: &u32| (at as usize) < source.len() && !source.is_char_boundary(at as usize);
  if !option {
    Err(number::BAD_OPTION)
  } else if call.text().is_some_and(|text| str::from_utf8(text).is_err()) {
    Err(number::NOT_UTF8)
  } else if call.positions().iter().any(inside) {
    Err(number::INSIDE_CHARACTER)
  } else {
    Ok(())
  }
}

/// An edit whose arguments are in order: document 02's freezing and its 20, then the Rust.
fn edit(desk: &mut Desk, call: &Call) -> Result<(), u32> {
  let Desk { magic_string, marks, .. } = desk;
  if let Call::Freeze { start, end } = *call {
    return frozen::freeze(magic_string, marks, start, end);
  }
  if let Some(left) = frozen::refused(magic_string, marks, call) {
    *magic_string = left;
    return Err(number::FROZEN);
  }
  rust_edit(magic_string, call)
}

/// The Rust's own part of it.
fn rust_edit(desk: &mut MagicString<'static>, call: &Call) -> Result<(), u32> {
  let text = || str::from_utf8(call.text().unwrap_or_default()).unwrap().to_string();
  let done = match *call {
    // The Rust never ends here.
    Call::Remove { start: 0, end: 1.. } if desk.source().is_empty() => {
      desk.remove_empty_source();
      return Ok(());
    }
    Call::Remove { start, end } => desk.remove(start, end),
    // The Rust panics here, after both cuts; 5 and 4 come first and have the next arm.
    Call::UpdateWith { start, end, .. } if start < end && end as usize > desk.source().len() => {
      desk.cut(start).and_then(|()| desk.cut(end)).map_err(number::of_message)?;
      return Err(number::PAST_SOURCE);
    }
    Call::UpdateWith { start, end, overwrite, .. } => {
      let options = UpdateOptions { keep_original: false, overwrite: overwrite != 0 };
      desk.update_with(start, end, text(), options)
    }
    Call::Reset { start, end } => desk.reset(start, end),
    Call::Insert { at, setting, .. } => setting.insert(desk, at, text()),
    Call::Append { .. } => Ok(desk.append(text())),
    Call::Prepend { .. } => Ok(desk.prepend(text())),
    Call::Relocate { start, end, to } => desk.relocate(start, end, to),
    Call::Trim { pattern } => Ok(desk.trim(regex(pattern))),
    Call::TrimStart { pattern } => Ok(desk.trim_start(regex(pattern))),
    Call::TrimEnd { pattern } => Ok(desk.trim_end(regex(pattern))),
    Call::TrimLines => Ok(desk.trim_lines()),
    Call::IndentWith { ref indentor, ref exclude } => {
      let exclude: Vec<_> = exclude.chunks(2).map(|pair| (pair[0], pair[1])).collect();
      let indentor = indentor.as_ref().map(|_| text());
      desk.indent_with(IndentOptions { indentor: indentor.as_deref(), exclude: &exclude })
    }
    _ => unreachable!("{call} is no edit"),
  };
  done.map(|_| ()).map_err(number::of_message)
}

/// Document 01's patterns as trim.rs writes them.
fn regex(pattern: u32) -> Option<&'static str> {
  Some(if pattern == 0 { "\\s" } else { "[\\r\\n]" })
}

/// A report whose arguments are in order.
fn report(desk: &Desk, call: &Call) -> Result<Answer, u32> {
  let text = desk.magic_string();
  Ok(match *call {
    Call::Slice { start, end, room } => {
      let slice = text.slice(start, end).map_err(number::of_message)?;
      Answer::written(slice.into_bytes(), room)
    }
    Call::ToString { room } => Answer::written(text.to_string().into_bytes(), room),
    Call::LastLine { room } => Answer::written(text.last_line().into_bytes(), room),
    Call::GetIndentString { room } => Answer::written(text.get_indent_string().into(), room),
    Call::Len => Answer::value(text.len() as u32),
    Call::LenUtf16 => Answer::value(text.len_utf16() as u32),
    Call::LineCount => Answer::value(line_count(&text.to_string()) as u32),
    Call::IsEmpty => Answer::value(text.is_empty() as u32),
    Call::HasChanged => Answer::value(text.has_changed() as u32),
    Call::LastChar => Answer::value(text.last_char().map_or(u32::MAX, |last| last as u32)),
    Call::IsRangeWithinEditedChunk { start, end } => {
      Answer::value(text.is_range_within_edited_chunk(start, end) as u32)
    }
    Call::Dump => Answer::written(crate::dump::print(&desk.data()).into_bytes(), None),
    _ => unreachable!("{call} is no report"),
  })
}

/// Document 02, L3, for which the Rust has no call: the line feeds in the output, and
/// one more if it is not empty and does not end in a line feed. A carriage return is a
/// byte like any other.
fn line_count(output: &str) -> usize {
  let line_feeds = output.bytes().filter(|&byte| byte == b'\n').count();
  let more = !output.is_empty() && !output.ends_with('\n');
  line_feeds + more as usize
}
