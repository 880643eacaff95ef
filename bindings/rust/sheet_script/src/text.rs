//! Texts between quotes.

use std::fmt::Write;

/// The text between quotes: printable characters as they are, all other bytes by an
/// escape.
pub fn quoted(text: &[u8]) -> String {
  let mut out = String::from('"');
  for part in text.utf8_chunks() {
    part.valid().chars().for_each(|char| push(&mut out, char));
    push_bytes(&mut out, part.invalid());
  }
  out.push('"');
  out
}

fn push(out: &mut String, char: char) {
  match char {
    '\n' => out.push_str("\\n"),
    '\t' => out.push_str("\\t"),
    '\r' => out.push_str("\\r"),
    '"' => out.push_str("\\\""),
    '\\' => out.push_str("\\\\"),
    _ if is_printable(char) => out.push(char),
    _ => push_bytes(out, char.encode_utf8(&mut [0; 4]).as_bytes()),
  }
}

fn push_bytes(out: &mut String, bytes: &[u8]) {
  for byte in bytes {
    write!(out, "\\x{byte:02X}").expect("a string takes any text");
  }
}

/// Whether a reader sees the character as it is.
fn is_printable(char: char) -> bool {
  match char.is_ascii() {
    true => char == ' ' || char.is_ascii_graphic(),
    false => char.escape_debug().eq([char]),
  }
}

/// The text up to the closing quote, and what stands behind that. The opening one was
/// read already.
pub fn unquoted(line: &str) -> Result<(Vec<u8>, &str), String> {
  let mut text = Vec::new();
  let mut rest = line.chars();
  while let Some(char) = rest.next() {
    match char {
      '"' => return Ok((text, rest.as_str())),
      '\\' => {
        let (byte, behind) = escaped(rest.as_str())?;
        text.push(byte);
        rest = behind.chars();
      }
      _ => text.extend(char.encode_utf8(&mut [0; 4]).as_bytes()),
    }
  }
  Err("the text has no closing quote".to_string())
}

/// The byte of an escape, and what stands behind it. The backslash was read already.
fn escaped(line: &str) -> Result<(u8, &str), String> {
  let mut rest = line.chars();
  let byte = match rest.next() {
    Some('n') => b'\n',
    Some('t') => b'\t',
    Some('r') => b'\r',
    Some('"') => b'"',
    Some('\\') => b'\\',
    Some('x') => return hexadecimal(rest.as_str()),
    Some(char) => return Err(format!("\\{char} is no escape: use \\n \\t \\r \\\" \\\\ \\xHH")),
    None => return Err("the text has no closing quote".to_string()),
  };
  Ok((byte, rest.as_str()))
}

/// The byte of two hexadecimal digits, and what stands behind them.
fn hexadecimal(line: &str) -> Result<(u8, &str), String> {
  let digits = line.get(..2).filter(|two| two.bytes().all(|digit| digit.is_ascii_hexdigit()));
  let byte = digits.and_then(|two| u8::from_str_radix(two, 16).ok());
  byte.map(|byte| (byte, &line[2..])).ok_or("\\x takes two hexadecimal digits".to_string())
}
