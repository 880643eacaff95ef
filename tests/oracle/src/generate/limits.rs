//! Papers that reach a desk limit: to it, and one past it.

use super::Generator;
use crate::{APPEND_LEFT, Call, PREPEND_RIGHT};

impl Generator {
  /// Sources of the longest length and one more, in characters of one to four
  /// bytes, with UTF-8 broken at the end or not.
  pub(super) fn open_at_limit(&mut self) {
    let character = self.random.pick(&["a", "é", "€", "😀"]);
    let len = self.limits.source + self.random.below(2);
    let mut source = character.repeat(len / character.len()).into_bytes();
    source.resize(len, if self.random.one_in(3) { 0xff } else { b'a' });
    self.call(Call::Open { source });
    self.any_calls(4);
  }

  /// As many chunks as there may be, or nearly, by an indent that cuts at each
  /// line; then calls that cut further.
  pub(super) fn chunk_limit(&mut self) {
    let lines = (self.limits.chunks + 1).saturating_sub(self.random.below(6));
    self.call(Call::Open { source: numbered_lines(lines) });
    self.call(Call::IndentWith { indentor: Some(b"\t".to_vec()), exclude: Vec::new() });
    if self.random.one_in(2) {
      let end = self.source_len() as u32;
      self.call(Call::Reset { start: 0, end });
    }
    self.any_calls(60);
  }

  /// As many pieces as there may be: indents for most, then one by one.
  pub(super) fn piece_limit(&mut self) {
    let indents = self.random.between(2, 5);
    let lines = (self.limits.pieces / indents).saturating_sub(self.random.below(2));
    self.call(Call::Open { source: numbered_lines(lines) });
    for _ in 0..indents {
      self.call(Call::IndentWith { indentor: Some(b" ".to_vec()), exclude: Vec::new() });
    }
    // At 0, a chunk's edge, so that no chunk is added.
    let room = self.limits.pieces - self.counts().pieces;
    let fillers = room.saturating_sub(self.random.below(3));
    for number in 0..fillers {
      let text = if number % 2 == 0 { Vec::new() } else { b"x".to_vec() };
      self.call(match number % 3 {
        0 => Call::Insert { at: 0, text, setting: APPEND_LEFT },
        1 => Call::Insert { at: 0, text, setting: PREPEND_RIGHT },
        _ => Call::Append { text },
      });
    }
    self.any_calls(40);
  }

  /// As many bytes as there may be, one less or one more, in a piece or a
  /// replacement; then other calls, and replacements of the same size.
  pub(super) fn byte_limit(&mut self) {
    let source = self.source(30);
    self.call(Call::Open { source });
    for _ in 0..4 {
      self.any_calls(3);
      let room = self.limits.bytes - self.counts().bytes;
      let len = (room + self.random.below(3)).saturating_sub(1);
      let call = self.with_text(len);
      self.call(call);
      if self.random.one_in(2) {
        let end = self.source_len() as u32;
        let len = (self.limits.bytes + 1).saturating_sub(self.random.below(3));
        let text = self.text_of(len);
        self.call(Call::UpdateWith { start: 0, end, overwrite: 1, text });
      }
    }
    self.any_calls(6);
  }

  /// A trim whose replacements just fit or just do not, beside a piece between
  /// the two chunks that holds the rest of the bytes.
  pub(super) fn trim_at_byte_limit(&mut self) {
    let (left, right) = (self.some_bytes(), self.some_bytes());
    let source = [&b"\n"[..], &vec![b'x'; left + right], &b"\n"[..]].concat();
    self.call(Call::Open { source });
    let (call, bytes) = match self.random.below(4) {
      0 => (Call::Trim { pattern: 0 }, left + right),
      1 => (Call::TrimStart { pattern: 1 }, left),
      2 => (Call::TrimEnd { pattern: 0 }, right),
      _ => (Call::TrimLines, left + right),
    };
    let len = self.limits.bytes.saturating_sub(bytes) + self.random.below(2);
    let text = self.text_of(len);
    self.call(Call::Insert { at: left as u32 + 1, text, setting: APPEND_LEFT });
    self.call(call);
    self.any_calls(6);
  }

  /// A blank tail that `trim` frees, so that it fits where `trim_start` alone
  /// does not.
  pub(super) fn trim_both_at_byte_limit(&mut self) {
    let blanks = self.some_bytes();
    let source = [b" x".to_vec(), vec![b'\n'; blanks]].concat();
    self.call(Call::Open { source });
    let tail = self.limits.bytes.saturating_sub(1 + blanks) + self.random.below(2);
    self.call(Call::Append { text: vec![b' '; tail] });
    self.call(Call::TrimStart { pattern: 0 });
    if self.random.one_in(2) {
      self.call(Call::Trim { pattern: 0 });
    }
    self.any_calls(6);
  }

  /// Texts that an indent lengthens to the limit, or one past it.
  pub(super) fn indent_at_byte_limit(&mut self) {
    self.call(Call::Open { source: b"a".to_vec() });
    let lines = self.some_bytes();
    let len = self.limits.bytes.saturating_sub(lines) + self.random.below(2);
    let mut text = b"x\n".repeat(lines - 1);
    text.resize(len, b'x');
    self.call(Call::UpdateWith { start: 0, end: 1, overwrite: 0, text });
    self.call(Call::IndentWith { indentor: Some(b"\t".to_vec()), exclude: Vec::new() });
    self.any_calls(6);
  }

  /// A call that adds a text of that length.
  fn with_text(&mut self, len: usize) -> Call {
    let text = self.text_of(len);
    let end = self.source_len() as u32;
    match self.random.below(5) {
      0 => Call::Append { text },
      1 => Call::Prepend { text },
      2 => Call::Insert { at: end, text, setting: APPEND_LEFT },
      3 => Call::Insert { at: 0, text, setting: PREPEND_RIGHT },
      _ => Call::UpdateWith { start: 0, end, overwrite: 0, text },
    }
  }

  /// Up to 2,000, and not more than a quarter of what a desk may hold.
  fn some_bytes(&mut self) -> usize {
    self.random.between(1, 2_000.min(self.limits.bytes / 4).max(1))
  }

  /// A text of exactly `len` bytes.
  fn text_of(&mut self, len: usize) -> Vec<u8> {
    let character = self.random.pick(&["x", " ", "\n", "é", "x\n", "😀"]);
    let mut text = character.repeat(len / character.len()).into_bytes();
    text.resize(len, b'x');
    text
  }
}

fn numbered_lines(count: usize) -> Vec<u8> {
  let lines: Vec<_> = (0..count).map(|number| format!("{number}é")).collect();
  lines.join("\n").into_bytes()
}
