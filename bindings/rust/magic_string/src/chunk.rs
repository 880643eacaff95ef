use std::fmt;

use crate::{Span, layout::*, memory::Memory};

/// One chunk of a desk, as it stands.
#[derive(Debug, Default, Clone, PartialEq, Eq)]
pub struct Chunk<'a> {
  /// Its bytes of the source.
  pub span: Span,
  /// Texts inserted before its content.
  pub intro: Vec<&'a str>,
  /// Texts inserted behind its content.
  pub outro: Vec<&'a str>,
  /// What replaces its part of the source; empty where it was removed.
  pub edited_content: Option<&'a str>,
  /// Whether it is frozen ([`MagicString::freeze`](crate::MagicString::freeze)).
  pub frozen: bool,
}

impl<'a> Chunk<'a> {
  /// The first byte of its span.
  pub fn start(&self) -> u32 {
    self.span.start()
  }

  /// The first byte behind its span.
  pub fn end(&self) -> u32 {
    self.span.end()
  }

  /// Whether it has a replacement.
  pub fn is_edited(&self) -> bool {
    self.edited_content.is_some()
  }

  /// What it adds to the output, in order: its intro, its content, its outro.
  pub fn fragments(&self, original_source: &'a str) -> impl Iterator<Item = &'a str> + use<'a> {
    let content = self.edited_content.unwrap_or_else(|| self.span.text(original_source));
    self.intro.clone().into_iter().chain([content]).chain(self.outro.clone())
  }
}

/// The chunks of a desk in list order, which is the order of the output.
#[derive(Clone)]
pub struct Chunks<'a> {
  memory: &'a Memory,
  next: usize,
}

impl<'a> Chunks<'a> {
  pub(crate) fn new(memory: &'a Memory) -> Self {
    Self { memory, next: memory.word(0, NEXT) as usize }
  }
}

impl<'a> Iterator for Chunks<'a> {
  type Item = Chunk<'a>;

  fn next(&mut self) -> Option<Chunk<'a>> {
    let (memory, row) = (self.memory, self.next);
    if row == LIST_END as usize {
      return None;
    }
    self.next = memory.word(row, NEXT) as usize;
    Some(Chunk {
      span: Span(memory.word(row, START), memory.word(row, END)),
      intro: memory.list(row, INTRO_AT, INTRO_N),
      outro: memory.list(row, OUTRO_AT, OUTRO_N),
      edited_content: memory.replacement(row),
      frozen: memory.word(row, MARK) != 0,
    })
  }
}

impl fmt::Debug for Chunks<'_> {
  fn fmt(&self, out: &mut fmt::Formatter) -> fmt::Result {
    out.debug_list().entries(self.clone()).finish()
  }
}
