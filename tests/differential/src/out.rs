//! A lent output buffer filled with a pattern, with bytes before and behind it
//! that are not lent.

use oracle::random::Random;

const BEHIND: usize = 24;

#[derive(Debug)]
pub struct Out {
  bytes: Vec<u8>,
  ahead: usize,
  room: usize,
  first: u8,
}

impl Out {
  /// A buffer of `room` bytes, at any alignment.
  pub fn new(room: usize, random: &mut Random) -> Self {
    let ahead = random.between(8, 15);
    let first = random.number() as u8;
    let bytes = (0..ahead + room + BEHIND).map(|place| pattern(first, place)).collect();
    Self { bytes, ahead, room, first }
  }

  pub fn lend(&mut self) -> &mut [u8] {
    &mut self.bytes[self.ahead..][..self.room]
  }

  /// The buffer, and the bytes before and behind it.
  pub fn all(&self) -> &[u8] {
    &self.bytes
  }

  /// The buffer begins with these bytes, and nothing else was written.
  pub fn check(&self, written: &[u8]) -> Result<(), String> {
    let (ahead, rest) = self.bytes.split_at(self.ahead);
    let (begin, behind) = rest.split_at(written.len());
    if begin != written {
      return Err("the bytes written are others".to_string());
    }
    let untouched = |bytes: &[u8], from: usize| {
      bytes.iter().enumerate().all(|(place, &byte)| byte == pattern(self.first, from + place))
    };
    if !untouched(ahead, 0) || !untouched(behind, self.ahead + written.len()) {
      return Err(format!("bytes outside the {} that are written changed", written.len()));
    }
    Ok(())
  }
}

fn pattern(first: u8, place: usize) -> u8 {
  (place as u8).wrapping_mul(37).wrapping_add((place >> 8) as u8).wrapping_add(first)
}
