//! Papers as a sheet holds them: a source and calls of a sheet's kinds, each chosen
//! on the desk that those before it leave.

use oracle::{APPEND_RIGHT, Call, Desk, Limits, generate::Caller as _, random::Random};

use super::Caller;
use crate::{
  layout::*,
  made,
  sheets::{
    fields::kind,
    reading::{MOST_RECORDS, MOST_SHEET},
  },
};

/// A paper, and what it is there to try.
pub struct InSheet {
  pub tries: &'static str,
  pub source: Vec<u8>,
  pub calls: Vec<Call>,
}

pub fn paper(random: &mut Random) -> InSheet {
  match random.below(60) {
    0 => many_chunks(random),
    1 => many_bytes(random),
    2 => full(random),
    3 => long(random),
    4 | 5 => refused_source(random),
    6..=8 => short("random sheets, an empty source", 0, random),
    _ => short("random sheets", random.between(1, 24), random),
  }
}

fn short(tries: &'static str, source: usize, random: &mut Random) -> InSheet {
  let mut writer = Writer::new(source, random);
  writer.any(random.between(0, 24));
  writer.paper(tries)
}

/// As many records as there may be, or some less.
fn long(random: &mut Random) -> InSheet {
  let mut writer = Writer::new(random.between(1, 2_000), random);
  let fewer = [0, 0, 1, random.below(100)][random.below(4)];
  writer.any(MOST_RECORDS - fewer);
  writer.paper("random sheets, many records")
}

/// Up to the most chunks by moves that cut three times, and other calls there.
fn many_chunks(random: &mut Random) -> InSheet {
  let mut writer = Writer::new(random.between(2_000, 6_000), random);
  while writer.takes(MOST_RECORDS) {
    let call = writer.caller.to_most_chunks();
    writer.write(call);
  }
  writer.paper("random sheets, many chunks")
}

/// Texts that use up the bytes of a desk, or one more.
fn many_bytes(random: &mut Random) -> InSheet {
  let mut writer = Writer::new(random.between(1, 40), random);
  for _ in 0..random.between(4, 40) {
    let call = writer.caller.with_text_of(writer.caller.bytes_left());
    writer.write(call);
  }
  writer.paper("random sheets, many bytes")
}

/// A sheet of the most bytes, or one or two less.
fn full(random: &mut Random) -> InSheet {
  let mut writer = Writer::new(random.between(0, MOST_SOURCE), random);
  let records = random.between(1, MOST_RECORDS - 1);
  for place in 0..records {
    let share = writer.left / (records - place);
    let mut call = writer.caller.edit();
    if let Some(text) = call.text_mut() {
      *text = made::text(random.between(0, share), random).into_bytes();
    }
    writer.write(call);
  }
  let insertion = |text| Call::Insert { at: 0, text, setting: APPEND_RIGHT };
  let empty = size(&insertion(Vec::new()));
  if let Some(left) = writer.left.checked_sub(empty + random.below(3)) {
    let text = made::text(left, random).into_bytes();
    writer.write(insertion(text));
  }
  writer.paper("random sheets, many bytes of sheet")
}

/// A source that is too long or not UTF-8, or both.
fn refused_source(random: &mut Random) -> InSheet {
  let paper = short("random sheets, a source that is refused", 20, random);
  let len = [20, MOST_SOURCE, MOST_SOURCE + 1, random.between(MOST_SOURCE, 40_000)];
  let len = len[random.below(len.len())];
  let source = match random.below(2) {
    0 if len > MOST_SOURCE => made::text(len, random).into_bytes(),
    _ => made::invalid(len, random),
  };
  InSheet { source, ..paper }
}

/// Writes calls to a sheet and makes them.
struct Writer {
  caller: Caller,
  calls: Vec<Call>,
  /// Bytes that the sheet can still have.
  left: usize,
}

impl Writer {
  /// Over a source of so many bytes.
  fn new(source: usize, random: &mut Random) -> Self {
    let source = made::text(source, random);
    let desk = Desk::open(Limits::FULL, source.as_bytes()).expect("a source within the limits");
    let left = MOST_SHEET - 3 - source.len();
    Self { caller: Caller::new(desk.data(), random.number()), calls: Vec::new(), left }
  }

  /// Whether there are fewer records and room for any without a text.
  fn takes(&self, records: usize) -> bool {
    self.calls.len() < records && self.left >= 15
  }

  /// Writes random calls up to so many records.
  fn any(&mut self, records: usize) {
    while self.takes(records) {
      let call = self.caller.in_sheet();
      self.write(call);
    }
  }

  /// Writes the call if a sheet can have it, with as much of its text as there is
  /// room for.
  fn write(&mut self, call: Call) {
    let Some(mut call) = as_in_sheet(call) else { return };
    let over = size(&call).saturating_sub(self.left);
    if let Some(text) = call.text_mut() {
      text.truncate(text.len().saturating_sub(over));
    }
    if let Some(left) = self.left.checked_sub(size(&call)) {
      self.left = left;
      self.calls.push(self.caller.made(call).call);
    }
  }

  fn paper(self, tries: &'static str) -> InSheet {
    InSheet { tries, source: self.caller.data.source.into_bytes(), calls: self.calls }
  }
}

/// Bytes of the call's record: its length, its kind, positions and a text.
fn size(call: &Call) -> usize {
  3 + 4 * call.positions().len() + call.text().map_or(0, <[u8]>::len)
}

/// The call with the options that a sheet's records have, if one of them makes it.
pub fn as_in_sheet(mut call: Call) -> Option<Call> {
  if let Call::UpdateWith { overwrite, .. } = &mut call {
    *overwrite = 1;
  }
  kind(&call).is_some().then_some(call)
}

impl Caller {
  /// A call of a sheet's kinds, chosen but not made.
  pub fn in_sheet(&mut self) -> Call {
    loop {
      let call = match self.random.below(12) {
        0 => self.replace_chunk(),
        1 => self.cut().call,
        _ => self.edit(),
      };
      if let Some(call) = as_in_sheet(call) {
        return call;
      }
    }
  }

  /// A move that cuts three times, as long as there may be so many chunks; then any call of
  /// a sheet's kinds, or one that cuts.
  pub fn to_most_chunks(&mut self) -> Call {
    if self.data.chunks.len() + 3 < MOST_CHUNKS {
      return self.three_cuts();
    }
    let cut = self.cut().call;
    as_in_sheet(cut).filter(|_| self.random.one_in(2)).unwrap_or_else(|| self.in_sheet())
  }

  /// A call of a sheet's kinds. Its text, if it has one, has so many bytes, one less or
  /// one more, or half as many, or few.
  pub fn with_text_of(&mut self, len: usize) -> Call {
    let mut call = self.in_sheet();
    if let Some(text) = call.text_mut() {
      let len = [len.saturating_sub(1), len, len + 1, len / 2, 3][self.random.below(5)];
      *text = made::text(len, &mut self.random).into_bytes();
    }
    call
  }

  /// A move with three places inside chunks, chosen but not made.
  fn three_cuts(&mut self) -> Call {
    let mut places = [(); 3].map(|()| self.between_characters());
    places.sort();
    let [start, end, to] = places;
    Call::Relocate { start, end, to }
  }
}
