//! What is lent beside a sheet: tables of other lengths, room for more or fewer
//! answers, and every choice of what a run can be refused for.

use std::array;

use oracle::{APPEND_LEFT, Call, random::Random};

use super::{
  fields::Fields,
  handed::{FULL, Handed},
};
use crate::layout::*;

pub fn all(seeds: &mut Random) -> Vec<Handed> {
  let all = [lengths(), rooms(), refusals()].concat().into_iter();
  all.map(|handed| Handed { seed: seeds.number(), ..handed }).collect()
}

/// A sheet of so many records.
fn sheet(records: usize) -> Fields {
  let call = Call::Insert { at: 3, text: b"x".to_vec(), setting: APPEND_LEFT };
  Fields::of(b"abcdef", &vec![call; records])
}

/// For the core alone.
fn handed(tries: &'static str, sheet: &Fields) -> Handed {
  Handed { printed: false, ..Handed::new(tries, sheet.bytes(), 0) }
}

/// Each table alone with other lengths, and all of them.
fn lengths() -> Vec<Handed> {
  const ROWS: [usize; 3] = [ROW, PIECE, 8];
  let beside = |table: usize| {
    let (right, row) = (FULL[table], ROWS[table]);
    [0, 1, right / 2, right - row, right - 1, right + 1, right + row, 2 * right]
  };
  let mut all = Vec::new();
  for choice in 0..beside(0).len() {
    let other: [usize; 3] = array::from_fn(|table| beside(table)[choice]);
    let alone = |table: usize| {
      let mut lengths = FULL;
      lengths[table] = other[table];
      lengths
    };
    for lengths in [alone(0), alone(1), alone(2), other] {
      let handed = handed("tables of other lengths", &sheet(2));
      all.push(Handed { lengths, ..handed });
    }
  }
  all
}

/// Room for no answer, one less than there are, as many, one more, and many more.
fn rooms() -> Vec<Handed> {
  let mut all = Vec::new();
  for records in [0_usize, 1, 2, 9, 199, 200, 201] {
    let mut rooms = vec![0, records, records + 1, 199, 200, 201, 256, 70_000];
    rooms.extend(records.checked_sub(1));
    for room in rooms {
      let handed = handed("room for the answers", &sheet(records));
      all.push(Handed { room, ..handed });
    }
  }
  all
}

/// What a run can be refused for, in the order in which the numbers come.
pub const REFUSALS: [u32; 5] = [2, 16, 13, 1, 14];

/// Every choice of refusals, all of them due at once: the bits of a choice are the
/// places of `REFUSALS`.
pub fn refusals() -> Vec<Handed> {
  (0..1 << REFUSALS.len()).map(due).collect()
}

fn due(choice: usize) -> Handed {
  let [other_tables, bad_sheet, long_source, not_utf8, short_room] =
    array::from_fn(|bit| choice >> bit & 1 == 1);
  let mut source = vec![b'a'; if long_source { MOST_SOURCE + 1 } else { 6 }];
  if not_utf8 {
    source[3] = 0xff;
  }
  let mut sheet = Fields { source_len: source.len() as u16, source, ..sheet(3) };
  if bad_sheet {
    sheet.records[2].body[0] = 9;
  }
  let mut handed = handed("refusals at once", &sheet);
  handed.room = if short_room { 2 } else { 3 };
  handed.lengths[1] -= other_tables as usize;
  handed
}
