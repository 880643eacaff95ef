//! Every call on desks that lead it each way: with room, and at each limit, so that
//! it works on tables of its own; texts at the front of the store, and at its top. Calls
//! of a sheet's kinds are filed there too, marked, shown and withdrawn; they are joined; and
//! ranges are frozen beside a record.

use std::slice;

use differential::{
  Core, Image, Made,
  image::{Style, encode_in},
  joins::{
    Lists,
    run::{Order, join},
  },
  layout::*,
  made::{Aim, make},
  sheets::fields::kind,
  sittings::{Memory, Sides, call_bytes, reading::Reader},
  step::Both,
};
use oracle::{
  Call::{self, *},
  DeskData, every_call, insertions,
  random::Random,
};

pub fn all(core: &mut impl Core, seed: u64) -> Result<(), String> {
  let mut random = Random::new(seed);
  for aim in AIMS {
    let desk = make(aim, &mut random);
    for style in [Style::tight(), Style::at_top(), Style::any(&mut random)] {
      let image = encode_in(style, &desk, &mut random);
      let mut start = Both::of(image.clone());
      start.check_start(core)?;
      for call in calls(&desk).into_iter().filter(|call| core.has(call)).collect::<Vec<_>>() {
        let made = Made { call, seed: random.number() };
        let met = start.clone().step(core, &made);
        met.map_err(|what| format!("{aim:?}, {}: {what}", made.call))?;
      }
      joined(core, &desk, &start, &mut random).map_err(|what| format!("{aim:?}, {what}"))?;
      filed(core, &desk, image.clone(), &mut random).map_err(|what| format!("{aim:?}, {what}"))?;
      frozen(core, &desk, image, &mut random).map_err(|what| format!("{aim:?}, {what}"))?;
    }
  }
  Ok(())
}

/// The same calls are filed on this memory, each alone, and withdrawn; and all of them,
/// each of which is marked and shown, and the first withdrawn.
fn filed(
  core: &mut impl Core,
  desk: &DeskData,
  image: Image,
  random: &mut Random,
) -> Result<(), String> {
  let start = Sides::of(image, Memory::empty(random));
  let mut all = start.clone();
  for call in calls(desk).into_iter().filter(|call| kind(call).is_some()) {
    let mut alone = start.clone();
    let mut file = |sides: &mut Sides| sides.file(core, &call_bytes(&call), random);
    let done = file(&mut alone).and_then(|_| file(&mut all));
    let done = done.and_then(|_| alone.withdraw(core, 1));
    done.map_err(|what| format!("file or withdraw {call}: {what}"))?;
  }
  marked(core, &mut all, random).map_err(|what| format!("marks: {what}"))?;
  all.withdraw(core, 1).map(|_| ()).map_err(|what| format!("withdraw the first: {what}"))
}

/// Each entry is marked and shown, also where that is refused; and the total.
fn marked(core: &mut impl Core, sides: &mut Sides, random: &mut Random) -> Result<(), String> {
  let count = sides.record().map_or(0, |record| record.entries.len() as u32);
  for k in 0..=count + 1 {
    sides.set_marks(core, k, 100 + k % 2)?;
    for reader in [Reader::Member, Reader::Examiner] {
      sides.show_entry(core, reader, k, 9_000, random)?;
      sides.show_entry(core, reader, k, 1, random)?;
    }
  }
  sides.total(core).map(|_| ())
}

/// Ranges are frozen on this memory, each alone, beside an empty record and beside one with a
/// call; then the same calls are filed on the frozen desk, and the first is withdrawn.
fn frozen(
  core: &mut impl Core,
  desk: &DeskData,
  image: Image,
  random: &mut Random,
) -> Result<(), String> {
  let (at, end) = (middle(desk), desk.source.len() as u32);
  let start = Sides::of(image, Memory::empty(random));
  for (from, to) in [(0, at), (at, end), (0, end), (0, 1), (at, at), (end, 0)] {
    let mut sides = start.clone();
    let mut freeze = |sides: &mut Sides| {
      sides.freeze(core, from, to).map_err(|what| format!("freeze {from} {to}: {what}"))
    };
    freeze(&mut sides)?;
    freeze(&mut sides)?;
    for call in calls(desk).into_iter().filter(|call| kind(call).is_some()) {
      let done = sides.file(core, &call_bytes(&call), random);
      done.map_err(|what| format!("file {call}, frozen: {what}"))?;
    }
    sides.freeze(core, from, to)?;
    sides.withdraw(core, 1).map_err(|what| format!("withdraw the first, frozen: {what}"))?;
  }
  Ok(())
}

/// A place between characters, in the middle.
fn middle(desk: &DeskData) -> u32 {
  let places = desk.source.len() / 2..;
  places.into_iter().find(|&at| desk.source.is_char_boundary(at)).unwrap_or(0) as u32
}

/// The same calls are joined on this desk, each with no other: where it is refused alone, or
/// has no space, too.
fn joined(
  core: &mut impl Core,
  desk: &DeskData,
  start: &Both,
  random: &mut Random,
) -> Result<(), String> {
  for call in calls(desk).into_iter().filter(|call| kind(call).is_some()) {
    let lists = Lists::of(&[], slice::from_ref(&call));
    let joined = join(core, &mut start.clone(), &lists, Order::FirstSecond, random);
    joined.map_err(|what| format!("join {call}: {what}"))?;
  }
  Ok(())
}

/// Little, and up to each limit.
const AIMS: [Aim; 6] = [
  Aim { source: 0, chunks: 1, pieces: 0, bytes: 0 },
  Aim { source: 40, chunks: 5, pieces: 9, bytes: 60 },
  Aim { source: 4_000, chunks: MOST_CHUNKS, pieces: 50, bytes: 500 },
  Aim { source: 1_000, chunks: 50, pieces: MOST_PIECES, bytes: 5_000 },
  Aim { source: 1_000, chunks: 50, pieces: 100, bytes: MOST_BYTES },
  Aim { source: MOST_SOURCE, chunks: MOST_CHUNKS, pieces: MOST_PIECES, bytes: MOST_BYTES },
];

/// Every call, at the front and in the middle of the source, with short texts and
/// long ones.
fn calls(desk: &DeskData) -> Vec<Call> {
  let mut calls = every_call();
  let at = middle(desk);
  let end = desk.source.len() as u32;
  for text in [b"X".to_vec(), vec![b'x'; 8_000]] {
    calls.extend(insertions(at, &text));
    calls.extend([
      UpdateWith { start: 0, end: at, overwrite: 0, text: text.clone() },
      UpdateWith { start: at, end, overwrite: 1, text: text.clone() },
      Append { text: text.clone() },
      Prepend { text: text.clone() },
      IndentWith { indentor: Some(text), exclude: Vec::new() },
    ]);
  }
  calls.extend([
    Open { source: desk.source.clone().into_bytes() },
    Remove { start: 0, end: at },
    Remove { start: at, end },
    Reset { start: 0, end },
    Freeze { start: 0, end: at },
    Freeze { start: at, end },
    Relocate { start: 0, end: at, to: end },
    Relocate { start: at, end, to: 0 },
    IndentWith { indentor: None, exclude: vec![0, at] },
    Slice { start: 0, end: None, room: None },
    ToString { room: None },
  ]);
  calls
}
