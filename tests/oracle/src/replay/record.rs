//! One line of the file.

use std::fmt;

use super::text;
use crate::{Answer, Call};

/// `NAME NUMBERS TEXT ROOM = NUMBER VALUE BYTES TABLES`.
pub struct Record {
  pub name: String,
  pub numbers: Vec<u32>,
  pub text: Vec<u8>,
  pub room: u32,
  pub number: u32,
  pub value: u32,
  pub bytes: Vec<u8>,
  pub tables: Tables,
}

/// What the tables are after the call.
pub enum Tables {
  /// As before, every byte.
  Kept,
  /// A well-formed desk with this digest.
  Digest(u32),
  /// Not looked at.
  Any,
}

impl Record {
  pub fn of(call: &Call, answer: &Answer, tables: Tables) -> Self {
    let line = call.to_string();
    Self {
      name: line.split(' ').next().unwrap_or_default().to_string(),
      numbers: numbers(call),
      text: text_of(call),
      room: room(call, answer),
      number: answer.number,
      value: answer.value,
      bytes: answer.bytes.clone(),
      tables,
    }
  }

  /// Sets word `place` of a table: chunks (0), pieces (1) or store (2).
  pub fn set_word(table: u32, place: u32, word: u32) -> Self {
    Self::plain("set_word", vec![table, place, word], 0, Tables::Any)
  }

  /// The check that every call makes, by itself.
  pub fn well_formed(number: u32) -> Self {
    Self::plain("well_formed", Vec::new(), number, Tables::Kept)
  }

  fn plain(name: &str, numbers: Vec<u32>, number: u32, tables: Tables) -> Self {
    let (text, bytes) = (Vec::new(), Vec::new());
    Self { name: name.to_string(), numbers, text, room: 0, number, value: 0, bytes, tables }
  }
}

impl fmt::Display for Record {
  fn fmt(&self, out: &mut fmt::Formatter) -> fmt::Result {
    let numbers: Vec<String> = self.numbers.iter().map(u32::to_string).collect();
    let numbers = if numbers.is_empty() { "-".to_string() } else { numbers.join(",") };
    let tables = match self.tables {
      Tables::Kept => "=".to_string(),
      Tables::Digest(digest) => digest.to_string(),
      Tables::Any => "-".to_string(),
    };
    let (text, bytes) = (text::encode(&self.text), text::encode(&self.bytes));
    let Self { name, room, number, value, .. } = self;
    write!(out, "{name} {numbers} {text} {room} = {number} {value} {bytes} {tables}")
  }
}

/// The call's numbers, in the order of the exported function's. An opening has
/// how many words its chunk table lacks. An option that is yes is any number but
/// 0, and an end that is absent is any number.
fn numbers(call: &Call) -> Vec<u32> {
  use Call::*;
  match *call {
    Open { .. } => vec![0],
    Remove { start, end } | Reset { start, end } => vec![start, end],
    IsRangeWithinEditedChunk { start, end } => vec![start, end],
    UpdateWith { start, end, overwrite, .. } => vec![start, end, overwrite],
    Relocate { start, end, to } => vec![start, end, to],
    Insert { at, .. } => vec![at],
    Trim { pattern } | TrimStart { pattern } | TrimEnd { pattern } => vec![pattern],
    IndentWith { ref indentor, ref exclude } => {
      let mut numbers = vec![indentor.is_some() as u32];
      numbers.extend(exclude);
      numbers
    }
    Slice { start, end: Some(end), .. } => vec![start, [1, 2, u32::MAX][end as usize % 3], end],
    Slice { start, end: None, .. } => vec![start, 0, start / 2],
    _ => Vec::new(),
  }
}

/// The source, or the text. An absent indentor has a text that is not looked at.
fn text_of(call: &Call) -> Vec<u8> {
  match call {
    Call::Open { source } => source.clone(),
    Call::IndentWith { indentor: None, .. } => vec![0xff],
    _ => call.text().unwrap_or_default().to_vec(),
  }
}

/// The length of the lent buffer: the call's, or one that is long enough.
fn room(call: &Call, answer: &Answer) -> u32 {
  match call.clone().room_mut() {
    None => 0,
    Some(Some(room)) => *room,
    Some(None) => answer.value + answer.value % 5,
  }
}
