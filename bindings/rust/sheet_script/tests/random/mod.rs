//! Random sheets.

use crate::plain::{Record, Sheet};

/// Random numbers by splitmix64: the same seed gives the same numbers.
pub struct Random(pub u64);

impl Random {
  pub fn below(&mut self, bound: usize) -> usize {
    self.0 = self.0.wrapping_add(0x9e37_79b9_7f4a_7c15);
    let mut mixed = self.0;
    mixed = (mixed ^ (mixed >> 30)).wrapping_mul(0xbf58_476d_1ce4_e5b9);
    mixed = (mixed ^ (mixed >> 27)).wrapping_mul(0x94d0_49bb_1331_11eb);
    ((mixed ^ (mixed >> 31)) % bound as u64) as usize
  }
}

impl Sheet {
  /// A sheet with up to this many records, most of whose calls can be made.
  pub fn any(random: &mut Random, records: usize) -> Self {
    let source = text(random, 12);
    let count = random.below(records + 1);
    let records = (0..count).map(|_| Record::any(random, source.len())).collect();
    Self { source, records }
  }
}

impl Record {
  /// A record over a source of this length, whose call can be made, most often.
  pub fn any(random: &mut Random, source_len: usize) -> Self {
    let kind = 1 + random.below(8) as u8;
    let (positions, has_text) = match kind {
      1 | 3 => (2, false),
      2 => (2, true),
      4..=7 => (1, true),
      _ => (3, false),
    };
    let positions = (0..positions).map(|_| position(random, source_len)).collect();
    let text = if has_text { text(random, 4) } else { Vec::new() };
    Self { kind, positions, text }
  }
}

/// A position of the source, or rarely another one.
fn position(random: &mut Random, source_len: usize) -> u32 {
  match random.below(40) {
    0 => u32::MAX,
    1 => random.below(1 << 32) as u32,
    _ => random.below(source_len + 2) as u32,
  }
}

/// A text of up to this many parts: letters, and what a script writes by an escape.
fn text(random: &mut Random, parts: usize) -> Vec<u8> {
  let mut text = Vec::new();
  for _ in 0..random.below(parts + 1) {
    let part = match random.below(60) {
      0 => NOT_UTF8[random.below(NOT_UTF8.len())],
      _ => PARTS[random.below(PARTS.len())].as_bytes(),
    };
    text.extend(part);
  }
  text
}

const PARTS: [&str; 16] = [
  "a",
  "bc",
  "x41",
  " ",
  "#",
  "'",
  "\"",
  "\\",
  "\n",
  "\t",
  "\r\n",
  "é",
  "–",
  "😀",
  "\0\x7F",
  "\u{301}\u{2028}\u{85}",
];

const NOT_UTF8: [&[u8]; 4] = [b"\xFF", b"\xC3", b"\xE2\x80", b"\xED\xA0\x80"];
