//! Check 9: the space that the any-order rule reckons for all calls together.

use std::fmt;

use sheet_script::Kind;

use super::{Broken, Listed};
use crate::{Chunk, MagicString, layout::*};

/// What is reckoned, and with what.
#[derive(Debug, Clone, Copy, PartialEq, Eq)]
pub enum Space {
  /// The desk's chunks, and three for each call.
  Chunks,
  /// The desk's pieces, and one for each insertion.
  Pieces,
  /// The bytes of the desk's pieces and replacements, and those of all texts.
  Bytes,
}

impl fmt::Display for Space {
  fn fmt(&self, out: &mut fmt::Formatter) -> fmt::Result {
    out.pad(match self {
      Space::Chunks => "the desk's chunks and three for each call",
      Space::Pieces => "the desk's pieces and one for each insertion",
      Space::Bytes => "the bytes of the desk's texts and of all texts in the lists",
    })
  }
}

/// The limits that the reckoning breaks.
pub fn missing<'a>(desk: &MagicString, calls: &[Listed]) -> Vec<Broken<'a>> {
  let texts = texts(desk);
  let insertions = calls.iter().filter(|call| inserts(call)).count();
  let bytes = |texts: &[&str]| texts.iter().map(|text| text.len()).sum::<usize>();
  let replacements: Vec<&str> = desk.chunks().filter_map(|chunk| chunk.edited_content).collect();
  let listed: usize = calls.iter().map(|call| call.record.text.len()).sum();
  let reckoned = [
    (Space::Chunks, desk.chunks().count() + 3 * calls.len(), CHUNKS),
    (Space::Pieces, texts.len() + insertions, PIECES),
    (Space::Bytes, bytes(&texts) + bytes(&replacements) + listed, STORE_BYTES),
  ];
  let broken = reckoned.into_iter().filter(|&(_, needed, allowed)| needed > allowed);
  broken.map(|(space, needed, allowed)| Broken::NoSpace { space, needed, allowed }).collect()
}

/// The texts of all pieces, empty ones too.
fn texts(desk: &MagicString) -> Vec<&str> {
  let of_chunks = desk.chunks().flat_map(|Chunk { intro, outro, .. }| [intro, outro]);
  of_chunks.chain([desk.intro(), desk.outro()]).flatten().collect()
}

fn inserts(call: &Listed) -> bool {
  use Kind::*;
  matches!(call.record.kind, AppendLeft | AppendRight | PrependLeft | PrependRight)
}
