//! Every call but the opening: the oracle's and a freezing, with arguments that many desks
//! take, and with arguments of which most get a number of their own on every desk.

use oracle::{
  Call::{self, *},
  every_call, insertions, reports,
};

pub fn accepted() -> Vec<Call> {
  [every_call(), vec![Freeze { start: 0, end: 1 }]].concat()
}

pub fn refused() -> Vec<Call> {
  let text = b"\xff".to_vec();
  let mut calls = vec![
    Remove { start: 2, end: 1 },
    UpdateWith { start: 0, end: u32::MAX, overwrite: 0, text: text.clone() },
    Reset { start: 0, end: u32::MAX },
    Append { text: text.clone() },
    Prepend { text: vec![b'x'; 40_000] },
    Relocate { start: 1, end: 1, to: 1 },
    Trim { pattern: 2 },
    TrimStart { pattern: u32::MAX },
    TrimEnd { pattern: 3 },
    TrimLines,
    IndentWith { indentor: Some(text.clone()), exclude: vec![2] },
    Freeze { start: 2, end: 1 },
    Slice { start: 2, end: Some(1), room: Some(0) },
    ToString { room: Some(0) },
    LastLine { room: Some(0) },
    GetIndentString { room: Some(0) },
  ];
  calls.extend(insertions(2, &text));
  calls.extend(reports(0, 1));
  calls
}
