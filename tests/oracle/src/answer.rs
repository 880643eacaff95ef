//! What a call gives back.

use std::fmt;

use crate::{hex, number};

/// The number, the reported value (bytes written, for a call that fills a
/// buffer; the cuts that an edit made and that remain; 0 where nothing is reported)
/// and the bytes written.
#[derive(Debug, Clone, PartialEq, Eq)]
pub struct Answer {
  pub number: u32,
  pub value: u32,
  pub bytes: Vec<u8>,
}

impl Answer {
  /// A number alone: an opening, or a refusal that changes nothing.
  pub fn number(number: u32) -> Self {
    Self { number, value: 0, bytes: Vec::new() }
  }

  /// An edit, accepted or refused, and its cuts.
  pub fn edit(number: u32, cuts: usize) -> Self {
    Self { number, value: cuts as u32, bytes: Vec::new() }
  }

  /// An accepted report of a value.
  pub fn value(value: u32) -> Self {
    Self { number: number::ACCEPTED, value, bytes: Vec::new() }
  }

  /// An accepted call that fills a buffer of `room` bytes, long enough if
  /// `None`; 14 if it is too short.
  pub fn written(bytes: Vec<u8>, room: Option<u32>) -> Self {
    if room.is_some_and(|room| bytes.len() > room as usize) {
      return Self::number(number::SHORT_BUFFER);
    }
    Self { number: number::ACCEPTED, value: bytes.len() as u32, bytes }
  }
}

/// `NUMBER VALUE HEX`.
impl fmt::Display for Answer {
  fn fmt(&self, out: &mut fmt::Formatter) -> fmt::Result {
    write!(out, "{} {} {}", self.number, self.value, hex::encode(&self.bytes))
  }
}
