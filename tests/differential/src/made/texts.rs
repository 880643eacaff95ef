//! Random texts of a given length.

use oracle::{
  generate::{BLANKS, CHARACTERS, INVALID},
  random::Random,
};

const LINES: &str = "ab  \t\n\n\r";
const LETTERS: &str = "abcdefgh";
const WIDE: &str = "é€😀";

/// UTF-8 of exactly `len` bytes.
pub fn text(len: usize, random: &mut Random) -> String {
  let characters = random.pick(&[CHARACTERS, CHARACTERS, CHARACTERS, BLANKS, LINES, LETTERS, WIDE]);
  let characters: Vec<char> = characters.chars().collect();
  let mut text = String::with_capacity(len);
  while text.len() < len {
    let character = characters[random.below(characters.len())];
    text.push(if text.len() + character.len_utf8() <= len { character } else { 'x' });
  }
  text
}

/// Bytes that are not UTF-8, about `len` of them.
pub fn invalid(len: usize, random: &mut Random) -> Vec<u8> {
  let ahead = random.between(0, len);
  let behind = text(len - ahead, random);
  [text(ahead, random).as_bytes(), random.pick(&INVALID), behind.as_bytes()].concat()
}
