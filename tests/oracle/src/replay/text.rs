//! Texts in the file: lowercase hexadecimal in parts with `+` between them, each
//! with `*COUNT` behind it if it stands there several times; `-` for an empty one.

use crate::hex;

/// The longest part that is looked for.
const PERIODS: usize = 8;
/// A repetition is written as one if it has at least so many bytes.
const WORTH: usize = 12;

pub fn encode(bytes: &[u8]) -> String {
  let mut parts = Vec::new();
  let (mut plain, mut at) = (0, 0);
  while at < bytes.len() {
    match repetition(&bytes[at..]) {
      Some((period, count)) => {
        push(&mut parts, &bytes[plain..at]);
        parts.push(format!("{}*{count}", hex::encode(&bytes[at..at + period])));
        at += period * count;
        plain = at;
      }
      None => at += 1,
    }
  }
  push(&mut parts, &bytes[plain..]);
  if parts.is_empty() { "-".to_string() } else { parts.join("+") }
}

fn push(parts: &mut Vec<String>, bytes: &[u8]) {
  if !bytes.is_empty() {
    parts.push(hex::encode(bytes));
  }
}

/// The shortest period at the front that repeats long enough, and how often.
fn repetition(bytes: &[u8]) -> Option<(usize, usize)> {
  (1..=PERIODS.min(bytes.len())).find_map(|period| {
    let part = &bytes[..period];
    let count = bytes.chunks_exact(period).take_while(|chunk| *chunk == part).count();
    (count > 1 && period * count >= WORTH).then_some((period, count))
  })
}
