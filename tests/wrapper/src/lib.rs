//! The crate magic_string (bindings/rust) and string_wizard, unchanged, side by side
//! on random calls: each answer, and the whole desk after it.

pub mod join;
pub mod sitting;

use magic_string::{End, IndentOptions, MagicString, Refusal, Side, UpdateOptions};
use oracle::{Answer, Call, ChunkData, DeskData};

/// What the wrapper's call gives, as the oracle has it. `None` where the wrapper's
/// types have no such call: texts of edits that are not UTF-8, lists of odd count,
/// and buffers of the caller but for the output. An edit's value is its cuts, which
/// reports leave.
pub fn call(desk: &mut MagicString, call: &Call) -> Option<Answer> {
  let cuts = desk.cuts();
  let answer = answer(desk, call)?;
  Some(match call {
    Call::Open { .. } => answer,
    _ if call.is_edit() => Answer::edit(answer.number, desk.cuts()),
    _ => {
      assert_eq!(desk.cuts(), cuts, "{call}");
      answer
    }
  })
}

/// The same, without the cuts of an edit.
fn answer(desk: &mut MagicString, call: &Call) -> Option<Answer> {
  use Call::*;
  let text = |bytes: &'_ [u8]| String::from_utf8(bytes.to_vec()).ok();
  let edited = |answer: Result<&mut MagicString, Refusal>| number(answer.map(drop));
  Some(match *call {
    Open { ref source } => match MagicString::from_utf8(source.clone()) {
      Ok(opened) => {
        *desk = opened;
        Answer::value(0)
      }
      Err(refusal) => number(Err(refusal)),
    },
    Remove { start, end } => edited(desk.remove(start, end)),
    UpdateWith { start, end, overwrite, text: ref bytes } => {
      let opts = UpdateOptions { overwrite: overwrite != 0 };
      edited(desk.update_with(start, end, text(bytes)?, opts))
    }
    Reset { start, end } => edited(desk.reset(start, end)),
    Insert { at, text: ref bytes, setting } => {
      let side = if setting.left { Side::Left } else { Side::Right };
      let end = if setting.front { End::Front } else { End::Back };
      edited(desk.insert(at, text(bytes)?, side, end))
    }
    Append { text: ref bytes } => edited(desk.append(text(bytes)?)),
    Prepend { text: ref bytes } => edited(desk.prepend(text(bytes)?)),
    Relocate { start, end, to } => edited(desk.relocate(start, end, to)),
    Trim { pattern } => edited(desk.trim(char_type(pattern))),
    TrimStart { pattern } => edited(desk.trim_start(char_type(pattern))),
    TrimEnd { pattern } => edited(desk.trim_end(char_type(pattern))),
    TrimLines => edited(desk.trim_lines()),
    IndentWith { ref indentor, ref exclude } => {
      let indentor = match indentor {
        Some(bytes) => Some(text(bytes)?),
        None => None,
      };
      let (pairs, []) = exclude.as_chunks() else { return None };
      let exclude: Vec<_> = pairs.iter().map(|&[start, end]| (start, end)).collect();
      let indentor = indentor.as_deref();
      edited(desk.indent_with(IndentOptions { indentor, exclude: &exclude }))
    }
    Freeze { start, end } => edited(desk.freeze(start, end)),
    Slice { start, end, room: None } => written(desk.slice(start, end)),
    ToString { room: None } => written(Ok(desk.to_string())),
    ToString { room: Some(room) } => {
      let mut out = vec![0; room as usize];
      match desk.write_to(&mut out) {
        Ok(length) => Answer::written(out[..length].to_vec(), None),
        Err(refusal) => number(Err(refusal)),
      }
    }
    LastLine { room: None } => written(Ok(desk.last_line())),
    GetIndentString { room: None } => written(Ok(desk.get_indent_string())),
    Slice { .. } | LastLine { .. } | GetIndentString { .. } => return None,
    Len => Answer::value(desk.len() as u32),
    LenUtf16 => Answer::value(desk.len_utf16() as u32),
    LineCount => Answer::value(desk.line_count() as u32),
    IsEmpty => Answer::value(desk.is_empty().into()),
    HasChanged => Answer::value(desk.has_changed().into()),
    LastChar => Answer::value(desk.last_char().map_or(u32::MAX, u32::from)),
    IsRangeWithinEditedChunk { start, end } => {
      Answer::value(desk.is_range_within_edited_chunk(start, end).into())
    }
    Dump => return None,
  })
}

fn number(answer: Result<(), Refusal>) -> Answer {
  Answer::number(answer.map_or_else(Refusal::number, |()| 0))
}

fn written(answer: Result<String, Refusal>) -> Answer {
  match answer {
    Ok(text) => Answer::written(text.into_bytes(), None),
    Err(refusal) => number(Err(refusal)),
  }
}

fn char_type(pattern: u32) -> Option<&'static str> {
  match pattern {
    0 => None,
    1 => Some("[\\r\\n]"),
    _ => Some("another"),
  }
}

/// The desk as data.
pub fn data(desk: &MagicString) -> DeskData {
  let owned = |texts: Vec<&str>| texts.into_iter().map(String::from).collect();
  let chunks = desk.chunks().map(|chunk| ChunkData {
    start: chunk.start(),
    end: chunk.end(),
    frozen: chunk.frozen,
    intro: owned(chunk.intro),
    outro: owned(chunk.outro),
    edited_content: chunk.edited_content.map(String::from),
  });
  DeskData {
    source: desk.source().to_string(),
    head: owned(desk.intro()),
    tail: owned(desk.outro()),
    chunks: chunks.collect(),
  }
}
