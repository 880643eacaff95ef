//! Memory that holds no desk: a word of a table is set, and every call gives 2
//! and keeps every byte, until an opening. Words that are not looked at change
//! nothing. The words are chosen so that any layout of the desk is damaged, or
//! none (docs/LAYOUT.md).

use super::{
  Writer,
  record::{Record, Tables},
};
use crate::{Answer, Call, every_call, number};

/// Word and value, in row 0 or row 1 of the chunk table, of twelve words each.
const DAMAGES: [(u32, u32); 12] = [
  (0, 0),        // no chunk
  (0, 513),      // more chunks than there are rows
  (2, 513),      // the first chunk is no chunk
  (3, u32::MAX), // nor is the last
  (5, 2_049),    // a head longer than the piece table
  (7, u32::MAX), // and a tail
  (12, 9),       // a chunk that begins behind its end
  (13, 16_385),  // one that ends past the source
  (14, 600),     // a link to no row
  (15, 600),     // and back
  (17, 4_000),   // an intro longer than the piece table
  (20, 32_769),  // a replacement outside the store
];

/// Words of row 0 and row 1 that mean nothing.
const UNSEEN: [u32; 6] = [1, 8, 9, 10, 11, 23];

pub fn papers(writer: &mut Writer) {
  writer.record(&Record::set_word(0, 0, 0));
  for call in every_call() {
    writer.no_desk(&call);
  }
  short_table(writer);
  for (place, word) in DAMAGES {
    desk(writer);
    writer.record(&Record::set_word(0, place, word));
    writer.well_formed(number::NOT_WELL_FORMED);
    for call in every_call() {
      writer.no_desk(&call);
    }
  }
  desk(writer);
  for place in UNSEEN {
    writer.record(&Record::set_word(0, place, 0xdead_0000 + place));
    writer.well_formed(number::ACCEPTED);
    writer.call(&Call::ToString { room: None });
  }
  for call in every_call() {
    writer.call(&call);
  }
  writer.well_formed(number::ACCEPTED);
}

/// Openings on a chunk table that lacks words.
fn short_table(writer: &mut Writer) {
  desk(writer);
  let call = Call::Open { source: b"abc".to_vec() };
  for lacks in [1, 12, 6_156] {
    let mut record = Record::of(&call, &Answer::number(number::NOT_WELL_FORMED), Tables::Kept);
    record.numbers = vec![lacks];
    writer.count(&record);
  }
}

/// A desk of one chunk, so that row 1 is that chunk's, which takes every call.
fn desk(writer: &mut Writer) {
  writer.call(&Call::Open { source: b"\tab\n".to_vec() });
  writer.call(&Call::Append { text: b"tail".to_vec() });
  writer.call(&Call::Prepend { text: b"head".to_vec() });
}
