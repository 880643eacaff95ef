//! Cores that read document 01 otherwise are caught: its traps, options and the
//! arguments beside them, freed places that are used again, and what a trim and
//! an indent go through.

use std::time::Duration;

use differential::{
  Answer, Core, Lent, Unseen,
  compare::{compare, compare_on},
  cores::StandIn,
  image,
  layout::*,
  papers::blanks,
  well_formed,
};
use oracle::{Call, DeskData, random::Random};

/// Makes the call in place of the stand-in.
type Fault = fn(&mut StandIn, &mut Lent, &Call, &Unseen, &mut [u8]) -> Answer;

#[derive(Clone)]
struct Wrong {
  right: StandIn,
  fault: Fault,
}

impl Core for Wrong {
  fn name(&self) -> &'static str {
    "wrong"
  }

  fn call(&mut self, lent: &mut Lent, call: &Call, unseen: &Unseen, out: &mut [u8]) -> Answer {
    if !well_formed(lent.source, lent.chunks, lent.pieces, lent.store) {
      return self.right.call(lent, call, unseen, out);
    }
    (self.fault)(&mut self.right, lent, call, unseen, out)
  }

  fn well_formed(&mut self, lent: &Lent) -> Answer {
    self.right.well_formed(lent)
  }
}

const FAULTS: [(&str, Fault); 12] = [
  ("zero width is tested before 8", |right, lent, call, unseen, out| {
    let answer = right.call(lent, call, unseen, out);
    let zero_width = matches!(call, Call::Relocate { start, end, .. } if start == end);
    if answer.number == 8 && zero_width { Answer::ACCEPTED } else { answer }
  }),
  ("the last character is the output's", |right, lent, call, unseen, out| {
    if *call != Call::LastChar {
      return right.call(lent, call, unseen, out);
    }
    let mut whole = vec![0; MOST_SOURCE + MOST_BYTES];
    let written = right.call(lent, &Call::ToString { room: None }, unseen, &mut whole).value;
    let text = str::from_utf8(&whole[..written as usize]).unwrap();
    let value = text.chars().next_back().map_or(u32::MAX, |last| last as u32);
    Answer { number: 0, value }
  }),
  ("only 1 says yes", |right, lent, call, unseen, out| {
    let absent = match call {
      Call::Slice { start, end: Some(_), room } if unseen.yes[0] != 1 => {
        Call::Slice { start: *start, end: None, room: *room }
      }
      Call::IndentWith { indentor: Some(_), exclude } if unseen.yes[0] != 1 => {
        Call::IndentWith { indentor: None, exclude: exclude.clone() }
      }
      call => call.clone(),
    };
    right.call(lent, &absent, unseen, out)
  }),
  ("an absent indentor must be UTF-8", |right, lent, call, unseen, out| {
    let absent = matches!(call, Call::IndentWith { indentor: None, .. });
    if absent && str::from_utf8(unseen.text).is_err() {
      return Answer { number: 1, value: 0 };
    }
    right.call(lent, call, unseen, out)
  }),
  ("an absent end must not be inside a character", |right, lent, call, unseen, out| {
    let absent = matches!(call, Call::Slice { end: None, .. });
    let byte = lent.source.get(unseen.position as usize);
    if absent && byte.is_some_and(|byte| (0x80..0xc0).contains(byte)) {
      return Answer { number: 3, value: 0 };
    }
    right.call(lent, call, unseen, out)
  }),
  ("a text needs one hole in the store", |right, lent, call, unseen, out| {
    let hole = longest_hole(lent);
    let answer = right.call(lent, call, unseen, out);
    let long = call.text().is_some_and(|text| text.len() > hole);
    if answer.number == 0 && long { Answer { number: 13, value: 0 } } else { answer }
  }),
  ("positions past the end are refused", |right, lent, call, unseen, out| {
    let past = matches!(call, Call::Remove { end, .. } if *end as usize > lent.source.len());
    let answer = right.call(lent, call, unseen, out);
    if answer.number == 0 && past { Answer { number: 10, value: 0 } } else { answer }
  }),
  ("a reversed range report is refused", |right, lent, call, unseen, out| {
    let reversed = matches!(call, Call::IsRangeWithinEditedChunk { start, end } if end < start);
    let answer = right.call(lent, call, unseen, out);
    if reversed { Answer { number: 4, value: 0 } } else { answer }
  }),
  ("the output is trimmed", |right, lent, call, unseen, out| {
    let answer = right.call(lent, call, unseen, out);
    if matches!(call, Call::Trim { pattern: 0 }) && answer.number == 0 {
      change(lent, trim_first_text);
    }
    answer
  }),
  ("a trim drops every empty piece of the head", |right, lent, call, unseen, out| {
    let answer = right.call(lent, call, unseen, out);
    if matches!(call, Call::TrimStart { .. }) && answer.number == 0 {
      change(lent, |desk| desk.head.retain(|piece| !piece.is_empty()));
    }
    answer
  }),
  ("each text of the head begins a line", |right, lent, call, unseen, out| {
    let answer = right.call(lent, call, unseen, out);
    if is_indent(call) && answer.number == 0 {
      change(lent, |desk| desk.head.iter_mut().skip(1).for_each(begin_line));
    }
    answer
  }),
  ("a chunk's intro is indented", |right, lent, call, unseen, out| {
    let answer = right.call(lent, call, unseen, out);
    if is_indent(call) && answer.number == 0 {
      change(lent, |desk| {
        desk
          .chunks
          .iter_mut()
          .flat_map(|chunk| chunk.intro.iter_mut().skip(1))
          .for_each(begin_line);
      });
    }
    answer
  }),
];

fn is_indent(call: &Call) -> bool {
  matches!(call, Call::IndentWith { indentor: None, .. })
}

/// A tab before a text that begins with another character than one.
fn begin_line(text: &mut String) {
  if text.starts_with(|first: char| !first.is_whitespace()) {
    text.insert(0, '\t');
  }
}

/// Lays the desk out anew, changed.
fn change(lent: &mut Lent, change: impl Fn(&mut DeskData)) {
  let mut desk = image::decode(lent.source, lent.chunks, lent.pieces, lent.store);
  change(&mut desk);
  let image = image::encode(&desk, &mut Random::new(1));
  lent.chunks.copy_from_slice(&image.chunks);
  lent.pieces.copy_from_slice(&image.pieces);
  lent.store.copy_from_slice(&image.store);
}

/// Blanks at the front of the first text that is not empty are taken off.
fn trim_first_text(desk: &mut DeskData) {
  if trim_first(&mut desk.head) {
    return;
  }
  for chunk in &mut desk.chunks {
    if trim_first(&mut chunk.intro) {
      return;
    }
    let part = &desk.source[chunk.start as usize..chunk.end as usize];
    let content = chunk.edited_content.as_deref().unwrap_or(part);
    if !content.is_empty() {
      let left = content.trim_start();
      if left != content {
        chunk.edited_content = Some(left.to_string());
      }
      return;
    }
    if trim_first(&mut chunk.outro) {
      return;
    }
  }
  trim_first(&mut desk.tail);
}

/// Whether the list has a text that is not empty; the first such is trimmed.
fn trim_first(list: &mut [String]) -> bool {
  let first = list.iter_mut().find(|text| !text.is_empty());
  first.map(|text| *text = text.trim_start().to_string()).is_some()
}

/// The longest row of bytes that no text has.
fn longest_hole(lent: &Lent) -> usize {
  let mut taken = vec![false; STORE_BYTES];
  let mut take = |at: u32, n: u32| taken[at as usize..][..n as usize].fill(true);
  let rows = lent.chunks.chunks(ROW).take(1 + lent.chunks[START] as usize);
  for (number, row) in rows.enumerate() {
    for (at, n) in [(row[INTRO_AT], row[INTRO_N]), (row[OUTRO_AT], row[OUTRO_N])] {
      let run = lent.pieces.chunks(PIECE).skip(at as usize).take(n as usize);
      run.for_each(|piece| take(piece[AT], piece[N]));
    }
    if number > 0 && row[TEXT_AT] != NONE {
      take(row[TEXT_AT], row[TEXT_N]);
    }
  }
  taken.split(|&taken| taken).map(<[bool]>::len).max().unwrap_or(0)
}

#[test]
fn wrong_readings_are_caught() {
  for (name, fault) in FAULTS {
    let mut core = Wrong { right: StandIn::new(1), fault };
    let mut compared = compare(&mut core, 7, 20_000, Duration::MAX);
    if compared.different.is_none() {
      compared = compare_on(blanks::paper, &mut core, 7, 50_000, Duration::MAX);
    }
    println!("{name}: {} calls", compared.tally.calls);
    assert!(compared.different.is_some(), "not caught: {name}");
  }
}
