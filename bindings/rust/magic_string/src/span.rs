/// The source bytes from the first number up to but without the second.
#[derive(Debug, Default, Clone, Copy, PartialEq, Eq)]
pub struct Span(pub u32, pub u32);

impl Span {
  /// The first byte.
  pub fn start(&self) -> u32 {
    self.0
  }

  /// The first byte behind.
  pub fn end(&self) -> u32 {
    self.1
  }

  /// Its part of the source.
  pub fn text<'s>(&self, source: &'s str) -> &'s str {
    &source[self.start() as usize..self.end() as usize]
  }
}
