//! Random sheets, each the same for the same seed: most keep the rules, in some one
//! is broken.

use std::slice;

use oracle::{Call, random::Random};

use super::{
  Handed,
  broken::{head_changed, record_changed},
  fields::Fields,
  reading::MOST_RECORDS,
};
use crate::{layout::SHEET_FRONT, papers::in_sheet};

/// One sheet in so many is for the program too.
const PRINTED: usize = 8;

pub fn handed(seed: u64) -> Handed {
  let random = &mut Random::new(seed);
  let paper = in_sheet::paper(random);
  let sheet = Fields::of(&paper.source, &paper.calls);
  let (tries, bytes) = match random.below(36) {
    0..=2 => ("random sheets, a field changed", field_changed(&sheet, random)),
    3..=5 => ("random sheets, bits turned", bits_turned(&sheet, random)),
    6 => ("random sheets, cut short", cut_short(&sheet, random)),
    _ => (paper.tries, sheet.bytes()),
  };
  let printed = random.one_in(PRINTED);
  let room = room(sheet.records.len(), random);
  Handed { room, printed, ..Handed::new(tries, bytes, random.number()) }
}

/// The record of this call alone, changed as a sheet is.
pub fn call_changed(call: &Call, random: &mut Random) -> Vec<u8> {
  let sheet = Fields::of(b"", slice::from_ref(call));
  let changed = [field_changed, bits_turned, cut_short][random.below(3)](&sheet, random);
  changed.get(SHEET_FRONT..).unwrap_or_default().to_vec()
}

/// As many answers as there are records, or room for more, rarely for fewer.
fn room(records: usize, random: &mut Random) -> usize {
  match random.below(20) {
    0 => random.between(0, records),
    1 => records.saturating_sub(1),
    2 => records + 1,
    3..=5 => MOST_RECORDS,
    6 => MOST_RECORDS + random.between(1, 100),
    _ => records,
  }
}

/// The head or a record is changed.
fn field_changed(sheet: &Fields, random: &mut Random) -> Vec<u8> {
  let changed = match sheet.records.len() {
    0 => head_changed(sheet),
    _ if random.one_in(8) => head_changed(sheet),
    records => {
      let any = random.below(records);
      record_changed(sheet, [0, any, any, records - 1][random.below(4)])
    }
  };
  changed[random.below(changed.len())].1.bytes()
}

/// One to three bits are turned, each anywhere or in the length or kind of a record.
fn bits_turned(sheet: &Fields, random: &mut Random) -> Vec<u8> {
  let mut bytes = sheet.bytes();
  let records = sheet.records.len();
  for _ in 0..random.between(1, 3) {
    let place = if records > 0 && random.one_in(2) {
      sheet.record_at(random.below(records)) + random.below(3)
    } else {
      random.below(bytes.len())
    };
    bytes[place] ^= 1 << random.below(8);
  }
  bytes
}

fn cut_short(sheet: &Fields, random: &mut Random) -> Vec<u8> {
  let mut bytes = sheet.bytes();
  bytes.truncate(random.below(bytes.len()));
  bytes
}
