//! Texts in scripts: lowercase hexadecimal, `-` for an empty text.

pub fn encode(bytes: &[u8]) -> String {
  const DIGITS: &[u8; 16] = b"0123456789abcdef";
  if bytes.is_empty() {
    return "-".to_string();
  }
  let mut text = String::with_capacity(2 * bytes.len());
  for byte in bytes {
    text.push(DIGITS[(byte >> 4) as usize] as char);
    text.push(DIGITS[(byte & 15) as usize] as char);
  }
  text
}

pub fn decode(text: &str) -> Option<Vec<u8>> {
  if text == "-" {
    return Some(Vec::new());
  }
  if text.is_empty() || !text.len().is_multiple_of(2) {
    return None;
  }
  text.as_bytes().chunks(2).map(|pair| Some(digit(pair[0])? << 4 | digit(pair[1])?)).collect()
}

fn digit(character: u8) -> Option<u8> {
  match character {
    b'0'..=b'9' => Some(character - b'0'),
    b'a'..=b'f' => Some(character - b'a' + 10),
    _ => None,
  }
}
