//! A desk as plain data. It stands in a crate of its own so that string_wizard's
//! unchanged lib.rs, which exports a fixed set of names, need not export it.

/// One `MagicString`: the source, the pieces before and after all chunks, and
/// the chunks in list order.
#[derive(Debug, Clone, Default, PartialEq, Eq)]
pub struct DeskData {
  pub source: String,
  pub head: Vec<String>,
  pub tail: Vec<String>,
  pub chunks: Vec<ChunkData>,
}

/// One chunk. `frozen` is its mark, which the Rust does not have (document 02, L8);
/// `edited_content` is its replacement, if it has one.
#[derive(Debug, Clone, Default, PartialEq, Eq)]
pub struct ChunkData {
  pub start: u32,
  pub end: u32,
  pub frozen: bool,
  pub intro: Vec<String>,
  pub outro: Vec<String>,
  pub edited_content: Option<String>,
}

/// What a desk holds, counted as document 01's limits count it: pieces with the
/// empty ones, bytes in pieces and replacements together.
#[derive(Debug, Clone, Copy, Default, PartialEq, Eq)]
pub struct Counts {
  pub chunks: usize,
  pub pieces: usize,
  pub bytes: usize,
}
