//! Papers that reach the limits, with short lines.

use super::Writer;
use crate::{APPEND_LEFT, APPEND_RIGHT, Call, PREPEND_LEFT, PREPEND_RIGHT, insertions};

pub fn papers(writer: &mut Writer) {
  sources(writer);
  bytes(writer);
  chunks(writer);
  pieces(writer);
}

/// Sources of the longest length and one byte more.
fn sources(writer: &mut Writer) {
  for character in ["a", "é", "😀"] {
    for len in [16_388, 16_385, 16_384] {
      let mut source = character.repeat(len / character.len()).into_bytes();
      source.resize(len, b'a');
      writer.call(&Call::Open { source });
    }
    writer.call(&Call::Len);
    writer.call(&Call::LenUtf16);
    writer.call(&Call::ToString { room: None });
    writer.call(&Call::ToString { room: Some(16_383) });
  }
}

/// Texts that fill the store, and one byte more, by every call that adds one.
fn bytes(writer: &mut Writer) {
  for len in [32_767, 32_768, 32_769, 40_000] {
    let text = vec![b'x'; len];
    let ends = [Call::Append { text: text.clone() }, Call::Prepend { text: text.clone() }];
    let inserted = insertions(2, &text);
    let update = Call::UpdateWith { start: 1, end: 3, overwrite: 0, text };
    for call in ends.into_iter().chain(inserted).chain([update]) {
      writer.call(&Call::Open { source: b"\nabcd \n".to_vec() });
      writer.call(&call);
      writer.call(&Call::Append { text: b"y".to_vec() });
      writer.call(&Call::ToString { room: None });
      writer.call(&Call::Trim { pattern: 0 });
      writer.call(&Call::TrimStart { pattern: 1 });
      writer.call(&Call::TrimEnd { pattern: 1 });
      writer.call(&Call::TrimLines);
      writer.call(&indent(b"\t"));
      writer.call(&Call::LineCount);
      writer.call(&Call::LastChar);
    }
  }
}

/// An indent of every line.
fn indent(indentor: &[u8]) -> Call {
  Call::IndentWith { indentor: Some(indentor.to_vec()), exclude: Vec::new() }
}

/// 511 chunks by an indent of every line, and calls that cut further: at most
/// two cuts. Then as many lines as there may be chunks, and one more.
fn chunks(writer: &mut Writer) {
  writer.call(&Call::Open { source: b"a\nbc".repeat(510) });
  writer.call(&indent(b"\t"));
  let text = b"t".to_vec();
  for _ in 0..2 {
    for (start, end) in [(1_101, 1_103), (1_103, 1_105), (1_200, 1_300)] {
      writer.call(&Call::Remove { start, end });
      writer.call(&Call::Reset { start, end });
      writer.call(&Call::Relocate { start, end, to: 0 });
      writer.call(&Call::UpdateWith { start, end, overwrite: 0, text: text.clone() });
    }
    for at in [1_121, 1_122] {
      insertions(at, &text).iter().for_each(|call| writer.call(call));
    }
    writer.call(&Call::ToString { room: None });
    writer.call(&Call::Slice { start: 3, end: Some(1_001), room: None });
    writer.call(&Call::Relocate { start: 4, end: 8, to: 0 });
    writer.call(&Call::Relocate { start: 0, end: 12, to: 20 });
  }
  for lines in [512, 513] {
    writer.call(&Call::Open { source: b"x\n".repeat(lines) });
    writer.call(&indent(b"\t"));
    writer.call(&Call::LineCount);
  }
}

/// 1,024 pieces, and one more by every call that adds one: indents of 200 lines
/// for most.
fn pieces(writer: &mut Writer) {
  writer.call(&Call::Open { source: ["éa", &"\nx".repeat(199)].concat().into_bytes() });
  for _ in 0..5 {
    writer.call(&indent(b" "));
  }
  for count in 0..22 {
    let text = if count % 3 == 0 { b"p".to_vec() } else { Vec::new() };
    writer.call(&match count % 6 {
      0 => Call::Append { text },
      1 => Call::Insert { at: 2, text, setting: APPEND_LEFT },
      2 => Call::Insert { at: 2, text, setting: PREPEND_RIGHT },
      3 => Call::Prepend { text },
      4 => Call::Insert { at: 0, text, setting: APPEND_RIGHT },
      _ => Call::Insert { at: 3, text, setting: PREPEND_LEFT },
    });
  }
  for at in [2, 3] {
    for text in [Vec::new(), b"q".to_vec()] {
      insertions(at, &text).iter().for_each(|call| writer.call(call));
      writer.call(&Call::Append { text: text.clone() });
      writer.call(&Call::Prepend { text });
    }
    writer.call(&indent(b"."));
    writer.call(&Call::UpdateWith { start: 0, end: 2, overwrite: 1, text: Vec::new() });
    writer.call(&Call::Reset { start: 0, end: 3 });
    writer.call(&Call::Len);
  }
}
