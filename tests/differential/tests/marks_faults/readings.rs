//! What readers see of entries.

use super::Fault;
use crate::{
  marks_rules::{examiner, member},
  sitting_rules::Held,
};

pub const FAULTS: &[Fault] = &[
  ("the member sees the marks", |rules| rules.member = examiner),
  ("the examiner sees no marks", |rules| rules.examiner = member),
  ("the member sees marks in place of the answer", |rules| {
    rules.member = |_, held, place| of(held, place, &[held.marks[place]]);
  }),
  ("answer and marks are exchanged", |rules| {
    rules.examiner = |_, held, place| of(held, place, &[held.marks[place], held.answers[place]]);
  }),
  ("no answer is shown", |rules| {
    rules.member = |_, held, place| of(held, place, &[]);
  }),
  ("the examiner sees no answer", |rules| {
    rules.examiner = |_, held, place| of(held, place, &[held.marks[place]]);
  }),
  ("the answer comes first", |rules| {
    rules.member = |_, held, place| [&[held.answers[place]], &held.calls[place].0[..]].concat();
  }),
  ("marks are shown as points", |rules| {
    rules.examiner =
      |_, held, place| of(held, place, &[held.answers[place], held.marks[place] / 10]);
  }),
  ("marks are two bytes", |rules| {
    rules.examiner = |_, held, place| of(held, place, &[held.answers[place], 0, held.marks[place]]);
  }),
  ("the call of the next is shown", |rules| {
    rules.member = |_, held, place| {
      let next = (place + 1).min(held.calls.len() - 1);
      [&held.calls[next].0[..], &[held.answers[place]]].concat()
    };
  }),
  ("the call of the first is shown", |rules| {
    rules.member = |_, held, place| [&held.calls[0].0[..], &[held.answers[place]]].concat();
  }),
  ("the answer of the next is shown", |rules| {
    rules.member = |_, held, place| of(held, place, &[next(&held.answers, place)]);
  }),
  ("the answer of the first is shown", |rules| {
    rules.member = |_, held, place| of(held, place, &held.answers[..1]);
  }),
  ("the marks of the next are shown", |rules| {
    rules.examiner =
      |_, held, place| of(held, place, &[held.answers[place], next(&held.marks, place)]);
  }),
  ("the marks of the first are shown", |rules| {
    rules.examiner = |_, held, place| of(held, place, &[held.answers[place], held.marks[0]]);
  }),
  ("the length is left out", |rules| {
    rules.member = |record, held, place| member(record, held, place)[2..].to_vec();
  }),
  ("the length counts the answer", |rules| {
    rules.member = |record, held, place| {
      let mut bytes = member(record, held, place);
      let len = u16::from_be_bytes([bytes[0], bytes[1]]) + 1;
      bytes[..2].copy_from_slice(&len.to_be_bytes());
      bytes
    };
  }),
  ("the length is turned", |rules| {
    rules.examiner = |record, held, place| {
      let mut bytes = examiner(record, held, place);
      bytes.swap(0, 1);
      bytes
    };
  }),
  ("255 bytes of a text", |rules| {
    rules.member = |record, held, place| {
      let mut bytes = member(record, held, place);
      bytes.truncate(270);
      bytes
    };
  }),
  ("texts that are not UTF-8 are not shown", |rules| {
    rules.member = |record, held, place| {
      let bytes = member(record, held, place);
      let text = held.calls[place].1.text().unwrap_or_default();
      let shown = if str::from_utf8(text).is_ok() { 0 } else { text.len() };
      [&bytes[..bytes.len() - 1 - shown], &bytes[bytes.len() - 1..]].concat()
    };
  }),
  ("refused calls are not shown", |rules| {
    rules.member = |record, held, place| match held.answers[place] {
      0 => member(record, held, place),
      answer => vec![answer],
    };
  }),
  ("answers are numbers", |rules| {
    rules.member = |_, held, place| of(held, place, &[held.answers[place].min(21)]);
  }),
  ("room for a byte less is enough", |rules| {
    rules.no_room = |room, needed| room + 1 < needed;
  }),
  ("room for a byte more is needed", |rules| rules.no_room = |room, needed| room <= needed),
  ("14 is not given", |rules| rules.no_room = |_, _| false),
  ("no room is enough", |rules| rules.no_room = |room, needed| room > 0 && room < needed),
  ("14 writes what there is room for", |rules| {
    rules.short = |out, bytes| {
      let len = out.len();
      out.copy_from_slice(&bytes[..len]);
    };
  }),
  ("14 writes the length", |rules| {
    rules.short = |out, bytes| out.iter_mut().zip(&bytes[..2]).for_each(|(out, byte)| *out = *byte);
  }),
  ("14 clears the buffer", |rules| rules.short = |out, _| out.fill(0)),
  ("a byte behind is cleared", |rules| {
    rules.behind = |out, len| out[len..].iter_mut().take(1).for_each(|byte| *byte = 0);
  }),
  ("all bytes behind are cleared", |rules| rules.behind = |out, len| out[len..].fill(0)),
  ("the last byte of the buffer is cleared", |rules| {
    rules.behind =
      |out, len| out[len..].iter_mut().next_back().into_iter().for_each(|byte| *byte = 0);
  }),
  ("nothing is reported", |rules| rules.show_value = |_, _| 0),
  ("the bytes of the call are reported", |rules| {
    rules.show_value = |needed, _| needed as u32 - 1;
  }),
  ("the room is reported", |rules| rules.show_value = |_, room| room as u32),
  ("8 bits of the bytes are reported", |rules| {
    rules.show_value = |needed, _| needed as u32 & 0xff;
  }),
];

/// The call at this place, and these bytes.
fn of(held: &Held, place: usize, behind: &[u8]) -> Vec<u8> {
  [&held.calls[place].0[..], behind].concat()
}

fn next(bytes: &[u8], place: usize) -> u8 {
  bytes.get(place + 1).copied().unwrap_or(bytes[place])
}
