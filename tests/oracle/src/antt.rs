//! Calls, answers and desks in the notation of the model's definitions, for a
//! table that the checker computes.

use desk_data::{ChunkData, DeskData};

use crate::{Answer, Call, Setting};

/// One line of a table: a call with its answer.
pub fn step(call: &Call, answer: &Answer) -> String {
  format!("gives ({}) {} {} {}", call_term(call), answer.number, answer.value, text(&answer.bytes))
}

/// One line of a table: the desk as it then stands.
pub fn desk(desk: &DeskData) -> String {
  let chunks: Vec<String> = desk.chunks.iter().map(chunk).collect();
  format!(
    "stands (record {{ source = {}; intro = {}; outro = {}; chunks = {} }})",
    text(desk.source.as_bytes()),
    pieces(&desk.head),
    pieces(&desk.tail),
    list(&chunks)
  )
}

fn chunk(chunk: &ChunkData) -> String {
  let replacement = chunk.edited_content.as_ref().map(|content| text(content.as_bytes()));
  format!(
    "chunk_from {} {} {} (record {{ intro = {}; outro = {}; edited_content = {} }})",
    chunk.start,
    chunk.end,
    chunk.frozen,
    pieces(&chunk.intro),
    pieces(&chunk.outro),
    option(replacement)
  )
}

fn pieces(pieces: &[String]) -> String {
  let pieces: Vec<String> = pieces.iter().map(|piece| text(piece.as_bytes())).collect();
  list(&pieces)
}

fn text(bytes: &[u8]) -> String {
  let bytes: Vec<String> = bytes.iter().map(u8::to_string).collect();
  list(&bytes)
}

fn list(items: &[String]) -> String {
  let items: String = items.iter().map(|item| format!("{item} ∷ ")).collect();
  format!("({items}[])")
}

fn option(value: Option<String>) -> String {
  value.map_or("none".to_string(), |value| format!("(some {value})"))
}

/// A buffer that is long enough, where the call names no length.
const LONG: u32 = 100_000;

fn call_term(call: &Call) -> String {
  match call {
    Call::Open { source } => format!("«open» {}", text(source)),
    _ => format!("on_desk ({})", desk_call_term(call)),
  }
}

fn desk_call_term(call: &Call) -> String {
  use Call::*;
  let name = call.to_string();
  let name = name.split(' ').next().unwrap_or_default();
  match call {
    Remove { start, end } | Reset { start, end } | Freeze { start, end } => {
      format!("change ({name} {start} {end})")
    }
    UpdateWith { start, end, overwrite, text: content } => {
      format!("change ({name} {start} {end} {} {})", text(content), *overwrite != 0)
    }
    Insert { at, text: content, setting: Setting { left, front } } => {
      format!("change (insert {at} {} {left} {front})", text(content))
    }
    Append { text: content } | Prepend { text: content } => {
      format!("change ({name} {})", text(content))
    }
    Relocate { start, end, to } => format!("change ({name} {start} {end} {to})"),
    Trim { pattern } | TrimStart { pattern } | TrimEnd { pattern } => {
      format!("change ({name} {pattern})")
    }
    TrimLines => format!("change {name}"),
    IndentWith { indentor, exclude } => {
      let indentor = option(indentor.as_ref().map(|indentor| text(indentor)));
      let exclude: Vec<String> = exclude.iter().map(u32::to_string).collect();
      format!("change ({name} {indentor} {})", list(&exclude))
    }
    Slice { start, end, room } => {
      let end = option(end.map(|end| end.to_string()));
      format!("report ({name} {start} {end} {})", room.unwrap_or(LONG))
    }
    ToString { room } | LastLine { room } | GetIndentString { room } => {
      format!("report ({name} {})", room.unwrap_or(LONG))
    }
    IsRangeWithinEditedChunk { start, end } => format!("report ({name} {start} {end})"),
    Len | LenUtf16 | LineCount | IsEmpty | HasChanged | LastChar => format!("report {name}"),
    Open { .. } => unreachable!("an opening is no call on a desk"),
    Dump => unreachable!("a desk is printed by `desk`"),
  }
}
