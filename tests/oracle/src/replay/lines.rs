//! Line counts of outputs that end in each place of a desk, and of empty ones.

use super::Writer;
use crate::{APPEND_LEFT, APPEND_RIGHT, Call};

pub fn papers(writer: &mut Writer) {
  let removed = Call::Remove { start: 0, end: 2 };
  for text in ["", "\n", "b\r"] {
    let text = text.as_bytes();
    paper(writer, text, &[]);
    for put in puts(text) {
      paper(writer, b"a\n", &[removed.clone(), put]);
    }
  }
}

/// Puts the text to the head, an intro, a replacement, an outro, or the tail.
fn puts(text: &[u8]) -> [Call; 5] {
  let text = || text.to_vec();
  [
    Call::Prepend { text: text() },
    Call::Insert { at: 0, text: text(), setting: APPEND_RIGHT },
    Call::UpdateWith { start: 0, end: 2, overwrite: 0, text: text() },
    Call::Insert { at: 2, text: text(), setting: APPEND_LEFT },
    Call::Append { text: text() },
  ]
}

/// What the edits leave, and the same with a line before it and empty pieces behind it.
fn paper(writer: &mut Writer, source: &[u8], edits: &[Call]) {
  let at = source.len() as u32;
  writer.call(&Call::Open { source: source.to_vec() });
  edits.iter().for_each(|edit| writer.call(edit));
  counted(writer);
  writer.call(&Call::Prepend { text: b"c\n".to_vec() });
  writer.call(&Call::Insert { at, text: Vec::new(), setting: APPEND_LEFT });
  writer.call(&Call::Append { text: Vec::new() });
  counted(writer);
}

fn counted(writer: &mut Writer) {
  writer.call(&Call::LineCount);
  writer.call(&Call::ToString { room: None });
}
