//! Random places of a desk as it now is.

use super::Caller;

impl Caller {
  pub(super) fn edge(&mut self) -> u32 {
    let chunk = &self.data.chunks[self.random.below(self.data.chunks.len())];
    if self.random.one_in(2) { chunk.start } else { chunk.end }
  }

  pub(super) fn between_characters(&mut self) -> u32 {
    let source = &self.data.source;
    let at = self.random.between(0, source.len());
    (at..=source.len()).find(|&at| source.is_char_boundary(at)).unwrap_or(0) as u32
  }
}
