//! Random edits for a list, most of them of those that the rule is of.

use oracle::{Call, DeskData, SETTINGS, random::Random};

use crate::made;

/// Chooses edits on a desk, some of which fail a check by themselves.
pub struct Edits<'a> {
  random: &'a mut Random,
  desk: &'a DeskData,
  /// Between the characters of the source.
  places: Vec<u32>,
  /// How many characters a range has at most.
  longest: usize,
}

impl<'a> Edits<'a> {
  pub fn new(desk: &'a DeskData, longest: usize, random: &'a mut Random) -> Self {
    let boundary = |at: &usize| desk.source.is_char_boundary(*at);
    let places = (0..=desk.source.len()).filter(boundary).map(|at| at as u32).collect();
    Self { random, desk, places, longest }
  }

  pub fn any(&mut self) -> Call {
    let (start, end) = self.range();
    let (at, text) = (self.place(), self.text());
    match self.random.below(41) {
      0 => Call::Trim { pattern: self.random.below(2) as u32 },
      1 => Call::TrimLines,
      2 => Call::IndentWith { indentor: Some(text), exclude: Vec::new() },
      3..=7 => Call::Remove { start, end },
      8..=14 => {
        let overwrite = [0, 0, 0, 1, 1, u32::MAX][self.random.below(6)];
        Call::UpdateWith { start, end, overwrite, text }
      }
      15..=18 => Call::Reset { start, end },
      choice @ 19..=32 => Call::Insert { at, text, setting: SETTINGS[choice % 4] },
      33 => Call::Append { text },
      34 => Call::Prepend { text },
      35 => Call::Freeze { start, end },
      _ => self.relocate(),
    }
  }

  /// A move to a place before or behind its range.
  fn relocate(&mut self) -> Call {
    let mut places = [self.place(), self.place(), self.place()];
    places.sort();
    let [low, middle, high] = places;
    if self.random.one_in(2) {
      Call::Relocate { start: low, end: middle, to: high }
    } else {
      Call::Relocate { start: middle, end: high, to: low }
    }
  }

  /// An edge of a chunk, a place between characters, or rarely one past the end.
  fn place(&mut self) -> u32 {
    match self.random.below(30) {
      0 => (self.desk.source.len() + self.random.between(1, 3)) as u32,
      1..=10 => {
        let chunk = &self.desk.chunks[self.random.below(self.desk.chunks.len())];
        if self.random.one_in(2) { chunk.start } else { chunk.end }
      }
      _ => self.places[self.random.below(self.places.len())],
    }
  }

  /// From a place on so many characters as a range has at most; rarely of no
  /// width.
  fn range(&mut self) -> (u32, u32) {
    let start = self.place();
    let from = self.places.partition_point(|&place| place < start);
    let count = if self.random.one_in(20) { 0 } else { self.random.between(1, self.longest) };
    (start, self.places.get(from + count).copied().unwrap_or(self.desk.source.len() as u32))
  }

  fn text(&mut self) -> Vec<u8> {
    let len = match self.random.below(8) {
      0 => 0,
      1 => self.random.between(6, 40),
      _ => self.random.between(1, 4),
    };
    made::text(len, self.random).into_bytes()
  }
}
