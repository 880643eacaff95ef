//! Random texts.

use super::Generator;

/// Characters of one to four bytes, with those that the calls look at.
pub const CHARACTERS: &str = "abxyz09  \t\t\n\n\n\r{};éßñ€あ\u{2003}\u{feff}😀𝄞\u{10ffff}\0";

/// The 25 characters with the property White_Space.
pub const BLANKS: &str = "\u{9}\u{a}\u{b}\u{c}\u{d} \u{85}\u{a0}\u{1680}\u{2000}\u{2001}\u{2002}\u{2003}\
  \u{2004}\u{2005}\u{2006}\u{2007}\u{2008}\u{2009}\u{200a}\u{2028}\u{2029}\u{202f}\u{205f}\u{3000}";

/// Characters that are no blanks, though some look like one or stand beside one.
const NOT_BLANKS: &str = "\u{8}\u{e}\u{1c}\u{84}\u{86}\u{180e}\u{200b}\u{2060}\u{feff}";

/// Bytes that are not UTF-8: alone, cut short, overlong, surrogates, too high.
pub const INVALID: [&[u8]; 9] = [
  b"\xff",
  b"a\x80",
  b"\xc3",
  b"\xe2\x82",
  b"\xf0\x9f\x98a",
  b"\xc0\x80",
  b"\xe0\x9f\xbf",
  b"\xed\xa0\x80",
  b"\xf4\x90\x80\x80",
];

impl Generator {
  /// A source of up to `most` characters; rarely one that is not UTF-8.
  pub(super) fn source(&mut self, most: usize) -> Vec<u8> {
    match self.random.below(30) {
      0 => self.invalid(),
      1..=4 => self.lines(most),
      5..=16 => b"abcdefghijklmnopqrstuvwxyz"[..self.random.between(1, most.min(26))].to_vec(),
      _ => self.characters(most),
    }
  }

  /// A text to insert: mostly short, sometimes empty, rarely not UTF-8.
  pub(super) fn inserted(&mut self) -> Vec<u8> {
    match self.random.below(40) {
      0 => self.invalid(),
      1..=9 => Vec::new(),
      10..=14 => self.characters(40),
      15..=20 => self.of(BLANKS, 3),
      21..=25 => b"XYZ"[..self.random.between(1, 3)].to_vec(),
      _ => self.characters(4),
    }
  }

  pub(super) fn invalid(&mut self) -> Vec<u8> {
    let mut text = self.characters(3);
    text.extend(self.random.pick(&INVALID));
    text
  }

  fn characters(&mut self, most: usize) -> Vec<u8> {
    match self.random.below(8) {
      0 => self.of(BLANKS, most),
      1 => [self.of(BLANKS, 3), self.of(CHARACTERS, most), self.of(BLANKS, 3)].concat(),
      2 => [self.of(BLANKS, 2), self.of(NOT_BLANKS, 2), self.of(BLANKS, 2)].concat(),
      _ => self.of(CHARACTERS, most),
    }
  }

  /// Lines as in a program, with tabs or blanks ahead and both line ends.
  fn lines(&mut self, most: usize) -> Vec<u8> {
    let mut text = Vec::new();
    while text.len() < most && !self.random.one_in(12) {
      let ahead = self.random.pick(&["", "", " ", "  ", "    ", "\t", "\t\t", " \t"]);
      let line = self.random.pick(&["", "a", "if x {", "}", "é = 1;", "\r"]);
      let end = self.random.pick(&["\n", "\n", "\r\n", ""]);
      text.extend([ahead, line, end].concat().as_bytes());
    }
    text
  }

  fn of(&mut self, characters: &str, most: usize) -> Vec<u8> {
    let characters: Vec<char> = characters.chars().collect();
    let count = self.random.between(0, most);
    let text: String =
      (0..count).map(|_| characters[self.random.below(characters.len())]).collect();
    text.into_bytes()
  }
}
