//! The lines of a script.

use crate::{
  Kind, Record,
  text::{quoted, unquoted},
};

/// A line that adds to the source.
const SOURCE: &str = "source";

/// The lines that make the source: one for each of its own, or one if it is empty.
pub fn of_source(source: &[u8]) -> String {
  let line = |part| format!("{SOURCE} {}\n", quoted(part));
  match source {
    [] => line(source),
    _ => source.split_inclusive(|&byte| byte == b'\n').map(line).collect(),
  }
}

/// What a line says.
pub enum Line {
  /// Nothing: it is blank, or a comment.
  Blank,
  /// A part of the source.
  Source(Vec<u8>),
  /// A call.
  Call(CallLine),
}

/// A call that owns its text.
pub struct CallLine {
  kind: Kind,
  positions: Vec<u32>,
  text: Vec<u8>,
}

impl CallLine {
  pub fn record(&self) -> Record<'_> {
    Record { kind: self.kind, positions: self.positions.clone(), text: &self.text }
  }
}

/// Reads a line.
pub fn read(line: &[u8]) -> Result<Line, String> {
  let line = str::from_utf8(line).map_err(|_| "the line is not UTF-8: use \\xHH")?.trim();
  if line.is_empty() || line.starts_with('#') {
    return Ok(Line::Blank);
  }
  let (name, rest) = word(line);
  if name == SOURCE {
    return match <[_; 1]>::try_from(arguments(rest)?) {
      Ok([Argument::Text(text)]) => Ok(Line::Source(text)),
      _ => Err(format!("{SOURCE} takes a text")),
    };
  }
  let kind = Kind::of_name(name).ok_or_else(|| format!("{name} is no call of a sheet"))?;
  let (positions, text) = sorted(kind, arguments(rest)?).ok_or_else(|| takes(kind))?;
  Ok(Line::Call(CallLine { kind, positions, text }))
}

/// The characters up to the first blank, and what follows them.
fn word(line: &str) -> (&str, &str) {
  line.split_at(line.find(char::is_whitespace).unwrap_or(line.len()))
}

enum Argument {
  Position(u32),
  Text(Vec<u8>),
}

/// The arguments up to the end of the line or a comment.
fn arguments(mut line: &str) -> Result<Vec<Argument>, String> {
  let mut found = Vec::new();
  loop {
    line = line.trim_start();
    if line.is_empty() || line.starts_with('#') {
      return Ok(found);
    }
    if let Some(behind) = line.strip_prefix('"') {
      let (text, rest) = unquoted(behind)?;
      found.push(Argument::Text(text));
      line = rest;
    } else {
      let (digits, rest) = word(line);
      found.push(Argument::Position(position(digits)?));
      line = rest;
    }
  }
}

fn position(digits: &str) -> Result<u32, String> {
  if !digits.bytes().all(|digit| digit.is_ascii_digit()) {
    return Err(format!("{digits} is no position and no text between quotes"));
  }
  digits.parse().map_err(|_| format!("position {digits} is above {}", u32::MAX))
}

/// The positions and the text, if they are what the kind has.
fn sorted(kind: Kind, arguments: Vec<Argument>) -> Option<(Vec<u32>, Vec<u8>)> {
  let mut positions = Vec::new();
  let mut text = None;
  for argument in arguments {
    match argument {
      Argument::Position(position) if text.is_none() => positions.push(position),
      Argument::Text(bytes) if text.is_none() => text = Some(bytes),
      _ => return None,
    }
  }
  let fits = positions.len() == kind.positions() && text.is_some() == kind.has_text();
  fits.then(|| (positions, text.unwrap_or_default()))
}

/// What a call of the kind takes.
fn takes(kind: Kind) -> String {
  let positions = ["no position", "one position", "two positions", "three positions"];
  let text = if kind.has_text() { " and a text" } else { "" };
  format!("{} takes {}{text}", kind.name(), positions[kind.positions()])
}
