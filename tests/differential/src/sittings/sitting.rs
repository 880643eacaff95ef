//! A sitting: a desk, a record beside it, and what is done with both.

use std::fmt;

use oracle::{Call, Desk, DeskData, Limits, dump, hex, random::Random};

use super::{
  Action,
  memory::{Memory, call_bytes},
  reading::{self, Entry},
};
use crate::{Image, Sizes, Start, image::encode, layout::*};

#[derive(Debug, Clone)]
pub struct Sitting {
  /// What it is there to try.
  pub tries: &'static str,
  pub start: Start,
  /// What makes the desk none, if anything does.
  pub harm: Option<Harm>,
  pub record: Written,
  /// The marks of a second record, if there is one, which agrees with the other but for them,
  /// beside the same desk. The member's actions are done there too, and those of the examiner
  /// not: what they give and leave must be the same.
  pub other_marks: Option<Vec<u8>>,
  pub actions: Vec<Action>,
  /// Chooses the cells that are not looked at, and places.
  pub seed: u64,
}

/// What a record's memory holds at first.
#[derive(Debug, Clone)]
pub struct Written {
  /// How many bytes are said to be used.
  pub used: u32,
  /// From the front of the bytes on: filed calls, whole or not.
  pub calls: Vec<u8>,
  /// From the answers' place on, and from the marks' place on. Those that are not here are
  /// any that a record can have.
  pub answers: Vec<u8>,
  pub marks: Vec<u8>,
  pub kept: Kept,
  /// What makes the kept desk none, if anything does.
  pub harm: Option<Harm>,
  /// How many words and bytes are lent.
  pub lengths: [usize; 2],
}

/// What stands in the place of the kept desk.
#[derive(Debug, Clone)]
pub enum Kept {
  Junk,
  /// A fresh desk over the source of the sitting's.
  Fresh,
  Desk(DeskData),
}

impl Written {
  /// These bytes, all of them used, in memory of the right lengths; beside them a fresh desk,
  /// or junk where there are none.
  pub fn bytes(calls: Vec<u8>) -> Self {
    let kept = if calls.is_empty() { Kept::Junk } else { Kept::Fresh };
    let lengths = [RECORD_WORDS_LEN, RECORD_BYTES_LEN];
    let used = calls.len() as u32;
    let (answers, marks) = (Vec::new(), Vec::new());
    Self { used, calls, answers, marks, kept, harm: None, lengths }
  }

  /// These calls, with any answers and marks.
  pub fn calls(calls: &[Call]) -> Self {
    Self::bytes(calls.iter().map(call_bytes).collect::<Vec<_>>().concat())
  }

  /// These calls with their answers and marks.
  pub fn of(record: &[Entry]) -> Self {
    let calls: Vec<_> = record.iter().map(|entry| call_bytes(&entry.call)).collect();
    let answers = record.iter().map(|entry| entry.answer).collect();
    let marks = record.iter().map(|entry| entry.marks).collect();
    Self { answers, marks, ..Self::bytes(calls.concat()) }
  }
}

impl Written {
  /// Memory of the kept desk, beside a desk over this source; none where there is junk.
  pub fn kept_tables(&self, source: &str, random: &mut Random) -> Option<Image> {
    let desk = match &self.kept {
      Kept::Junk => return None,
      Kept::Fresh => &fresh(source),
      Kept::Desk(desk) => desk,
    };
    let mut image = encode(desk, random);
    if let Some(Harm { harm, .. }) = self.harm {
      harm(&mut image);
    }
    Some(image)
  }
}

/// A fresh desk over the source.
pub fn fresh(source: &str) -> DeskData {
  Desk::open(Limits::FULL, source.as_bytes()).expect("a source within the limits").data()
}

/// A change after which memory is no desk, by its name.
#[derive(Debug, Clone, Copy)]
pub struct Harm {
  pub name: &'static str,
  pub harm: fn(&mut Image),
}

pub const HARMS: [Harm; 8] = [
  Harm { name: "no chunk", harm: |image| image.chunks[START] = 0 },
  Harm { name: "a list that does not end", harm: |image| *image.word_mut(1, NEXT) = 1 },
  Harm { name: "a source with a byte more", harm: |image| image.source.push(b'a') },
  Harm { name: "a source that is not UTF-8", harm: |image| image.source.push(0xff) },
  Harm { name: "a long source", harm: |image| image.source.resize(MOST_SOURCE + 1, b'a') },
  Harm { name: "a shorter table of chunks", harm: |image| _ = image.chunks.pop() },
  Harm { name: "no pieces", harm: |image| image.pieces.clear() },
  Harm { name: "a longer store", harm: |image| image.store.push(0) },
];

/// Those that a kept desk can have, whose tables have their lengths and no source.
pub const KEPT_HARMS: [Harm; 6] = [
  HARMS[0],
  HARMS[1],
  Harm { name: "a span that ends further", harm: |image| *image.word_mut(1, END) += 1 },
  Harm { name: "more pieces than rows", harm: |image| *image.word_mut(0, OUTRO_N) = u32::MAX },
  Harm {
    name: "an empty replacement outside the store",
    harm: |image| {
      *image.word_mut(1, TEXT_AT) = STORE_BYTES as u32 + 1;
      *image.word_mut(1, TEXT_N) = 0;
    },
  },
  Harm {
    name: "a replacement that is not UTF-8",
    harm: |image| {
      *image.word_mut(1, TEXT_AT) = 0;
      *image.word_mut(1, TEXT_N) = 1;
      image.store[0] = 0xff;
    },
  },
];

impl Sitting {
  /// On a fresh desk over this source.
  pub fn fresh(tries: &'static str, source: &str, record: Written, actions: Vec<Action>) -> Self {
    Self::on(tries, fresh(source), record, actions)
  }

  /// On this desk.
  pub fn on(tries: &'static str, desk: DeskData, record: Written, actions: Vec<Action>) -> Self {
    let start = Start::Desk { desk, seed: 0 };
    Self { tries, start, harm: None, record, other_marks: None, actions, seed: 0 }
  }

  /// The same without what opens a desk: tables of other lengths are not opened.
  pub fn without_openings(mut self) -> Self {
    self.actions.retain(|action| !action.is_opening());
    self
  }

  /// The same with other memory.
  pub fn seeded(mut self, seeds: &mut Random) -> Self {
    let (Start::Junk { seed } | Start::Desk { seed, .. }) = &mut self.start;
    (*seed, self.seed) = (seeds.number(), seeds.number());
    self
  }

  /// What is lent at first.
  pub fn memory(&self, random: &mut Random) -> (Image, Memory) {
    let mut image = self.start.memory(Sizes::FULL);
    if let Some(Harm { harm, .. }) = self.harm {
      harm(&mut image);
    }
    (image, Memory::of(&self.record, self.source(), random))
  }

  fn source(&self) -> &str {
    if let Start::Desk { desk, .. } = &self.start { &desk.source } else { "" }
  }
}

impl fmt::Display for Sitting {
  fn fmt(&self, out: &mut fmt::Formatter) -> fmt::Result {
    writeln!(out, "# {}, seed {}", self.tries, self.seed)?;
    write!(out, "{}", self.start)?;
    if let Some(Harm { name, .. }) = self.harm {
      writeln!(out, "# no desk: {name}")?;
    }
    write!(out, "{}", self.record)?;
    if let Some(marks) = &self.other_marks {
      writeln!(out, "# beside a second record with other marks: {}", hex::encode(marks))?;
    }
    self.actions.iter().try_for_each(|action| writeln!(out, "{action}"))
  }
}

/// The calls where they are a record's, else its bytes; and the kept desk.
impl fmt::Display for Written {
  fn fmt(&self, out: &mut fmt::Formatter) -> fmt::Result {
    let memory = Memory::of(self, "", &mut Random::new(0));
    if let Some(entries) = reading::entries(memory.words.lent(), memory.bytes.lent()) {
      writeln!(out, "# a record of {} calls", entries.len())?;
      let mut same = entries.chunk_by(|one, other| one.call == other.call);
      same.try_for_each(|same| writeln!(out, "#   {} times {}", same.len(), same[0].call))?;
    } else {
      let Written { used, calls, lengths: [words, bytes], .. } = self;
      writeln!(out, "# no record: {words} words, {bytes} bytes, used {used}")?;
      writeln!(out, "# {}", hex::encode(calls))?;
    }
    match &self.kept {
      Kept::Junk => writeln!(out, "# no kept desk")?,
      Kept::Fresh => writeln!(out, "# kept: a fresh desk")?,
      Kept::Desk(desk) => writeln!(out, "# kept: {}", dump::print(desk))?,
    }
    self.harm.map_or(Ok(()), |Harm { name, .. }| writeln!(out, "# the kept desk is none: {name}"))
  }
}
