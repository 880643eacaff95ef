//! Every call but the opening, with arguments that many desks take.

use crate::{
  Call::{self, *},
  SETTINGS,
};

pub fn every_call() -> Vec<Call> {
  let text = b"X".to_vec();
  let mut calls = vec![
    Remove { start: 0, end: 1 },
    UpdateWith { start: 1, end: 2, overwrite: 1, text: text.clone() },
    Reset { start: 0, end: 1 },
  ];
  calls.extend(insertions(1, &text));
  calls.extend([
    Append { text: text.clone() },
    Prepend { text: text.clone() },
    Relocate { start: 0, end: 1, to: 2 },
    IndentWith { indentor: Some(text), exclude: vec![0, 1] },
    Trim { pattern: 0 },
    TrimStart { pattern: 1 },
    TrimEnd { pattern: 0 },
    TrimLines,
    Slice { start: 0, end: None, room: Some(40) },
    ToString { room: Some(40) },
    LastLine { room: Some(40) },
    GetIndentString { room: Some(4) },
  ]);
  calls.extend(reports(0, 1));
  calls
}

/// The insertion with each setting.
pub fn insertions(at: u32, text: &[u8]) -> [Call; 4] {
  SETTINGS.map(|setting| Insert { at, text: text.to_vec(), setting })
}

/// Every report that fills no buffer.
pub fn reports(start: u32, end: u32) -> [Call; 7] {
  [Len, LenUtf16, LineCount, IsEmpty, HasChanged, LastChar, IsRangeWithinEditedChunk { start, end }]
}
