//! What holds of every desk and of every call, whatever the Rust does: checked
//! at each step of a script.

use crate::{Answer, Call, Desk, DeskData, Script, cuts, frozen::Marks, keeps, number::*};

/// Makes the call as the script does, and checks the step and the desk after it.
pub fn call(script: &mut Script, call: &Call) -> Result<Option<Answer>, String> {
  let before = script.desk().map(Desk::data);
  let answer = script.call(call);
  if let Some(after) = script.desk() {
    desk(after)?;
    if let (Some(before), Some(answer)) = (before, &answer) {
      step(&before, call, answer, &after.data())?;
    }
  }
  Ok(answer)
}

fn ensure(holds: bool, what: &str) -> Result<(), String> {
  if holds { Ok(()) } else { Err(what.to_string()) }
}

/// The desk is well formed, and its reports agree with its output.
pub fn desk(desk: &Desk) -> Result<(), String> {
  let data = desk.data();
  let text = desk.magic_string();
  ensure(data.source.len() <= desk.limits().source, "the source is too long")?;
  ensure(desk.limits().hold(desk.counts()), "a limit is broken")?;
  ensure(text.links_hold(), "the list is not linked both ways")?;
  ensure(tiles(&data), "the spans do not cover the source once")?;

  let output = text.to_string();
  ensure(output == concatenated(&data), "the output is not its pieces in order")?;
  ensure(text.has_changed() == (output != data.source), "has_changed")?;
  let last_line = output.rsplit('\n').next().unwrap();
  ensure(text.last_line() == last_line, "last_line is not what follows the last line feed")?;
  let around = data.head.iter().chain(&data.tail);
  ensure(text.len() + around.map(String::len).sum::<usize>() == output.len(), "len")?;

  let built = Desk::build(desk.limits(), &data);
  ensure(built.magic_string().links_hold(), "the desk built again is not linked both ways")?;
  ensure(built.data() == data, "the desk built again is another")
}

/// Spans in source order meet, end between characters, and none is empty but
/// the one of an empty source.
fn tiles(data: &DeskData) -> bool {
  let mut spans: Vec<_> = data.chunks.iter().map(|chunk| (chunk.start, chunk.end)).collect();
  spans.sort();
  if data.source.is_empty() {
    return spans == [(0, 0)];
  }
  let mut reached = 0;
  for (start, end) in spans {
    if start != reached || start >= end || !data.source.is_char_boundary(end as usize) {
      return false;
    }
    reached = end;
  }
  reached as usize == data.source.len()
}

fn concatenated(data: &DeskData) -> String {
  let mut output = data.head.concat();
  for chunk in &data.chunks {
    let kept = &data.source[chunk.start as usize..chunk.end as usize];
    output += &chunk.intro.concat();
    output += chunk.edited_content.as_deref().unwrap_or(kept);
    output += &chunk.outro.concat();
  }
  output + &data.tail.concat()
}

/// The answer is one that the call may have, and what must not change has not.
pub fn step(
  before: &DeskData,
  call: &Call,
  answer: &Answer,
  after: &DeskData,
) -> Result<(), String> {
  let number = answer.number;
  ensure(number == ACCEPTED || numbers(call).contains(&number), "a number not of this call")?;
  let kept = keeps::every_byte(call, number);
  ensure(!kept || before == after, "a call that changes nothing changed the desk")?;
  if let Call::Open { .. } = call {
    return ensure(answer.value == 0, "an opening reports");
  }
  ensure(before.source == after.source, "another source")?;
  if call.is_edit() {
    let made = if kept { 0 } else { cuts::made(before, call) };
    let growth = after.chunks.len() - before.chunks.len();
    ensure(answer.value as usize == growth, "not the growth in chunks")?;
    ensure(frozen_stays(before, after), "what is frozen is no more, or is shown otherwise")?;
    let marks = [before, after].map(Marks::of);
    let sets = matches!(call, Call::Freeze { .. });
    ensure(sets || marks[0] == marks[1], "a mark is set without freezing")?;
    return ensure(growth == made, "not the cuts that make two chunks");
  }
  let silent = answer.value == 0 && answer.bytes.is_empty();
  ensure(silent || number == ACCEPTED, "a refusal reports")
}

/// The bytes of each marked chunk have the mark, and the replacement or none, that they had.
fn frozen_stays(before: &DeskData, after: &DeskData) -> bool {
  let chunk = |desk: &DeskData, at: u32| {
    let chunk = desk.chunks.iter().find(|chunk| chunk.start <= at && at < chunk.end);
    chunk.map(|chunk| (chunk.frozen, chunk.edited_content.clone()))
  };
  let marked = before.chunks.iter().filter(|chunk| chunk.frozen);
  let mut bytes = marked.flat_map(|chunk| chunk.start..chunk.end);
  bytes.all(|at| chunk(before, at) == chunk(after, at))
}

/// The refusals that the documents have for the call; of freezing, with no call filed.
fn numbers(call: &Call) -> &'static [u32] {
  use Call::*;
  match call {
    Open { .. } => &[NOT_UTF8, LIMIT],
    Remove { .. } => &[INSIDE_CHARACTER, END_BEFORE_START, CUT_IN_REPLACEMENT, FROZEN, LIMIT],
    UpdateWith { .. } => &[
      NOT_UTF8,
      INSIDE_CHARACTER,
      END_BEFORE_START,
      ZERO_WIDTH,
      CUT_IN_REPLACEMENT,
      ACROSS_MOVED_EDGE,
      PAST_SOURCE,
      FROZEN,
      LIMIT,
    ],
    Reset { .. } => {
      &[INSIDE_CHARACTER, END_BEFORE_START, CUT_IN_REPLACEMENT, PAST_SOURCE, FROZEN, LIMIT]
    }
    Freeze { .. } => &[INSIDE_CHARACTER, END_BEFORE_START, CUT_IN_REPLACEMENT, PAST_SOURCE, LIMIT],
    Insert { .. } => &[NOT_UTF8, INSIDE_CHARACTER, CUT_IN_REPLACEMENT, LIMIT],
    Append { .. } | Prepend { .. } => &[NOT_UTF8, LIMIT],
    Relocate { .. } => &[
      INSIDE_CHARACTER,
      END_BEFORE_START,
      CUT_IN_REPLACEMENT,
      INTO_ITSELF,
      NOT_TOGETHER,
      PAST_SOURCE,
      LIMIT,
    ],
    Trim { .. } | TrimStart { .. } | TrimEnd { .. } => &[BAD_OPTION, FROZEN, LIMIT],
    TrimLines => &[FROZEN, LIMIT],
    IndentWith { .. } => &[BAD_OPTION, NOT_UTF8, INSIDE_CHARACTER, FROZEN, LIMIT],
    Slice { .. } => &[INSIDE_CHARACTER, SLICE_START, SLICE_END, SHORT_BUFFER],
    ToString { .. } | LastLine { .. } | GetIndentString { .. } => &[SHORT_BUFFER],
    Len | LenUtf16 | LineCount | IsEmpty | HasChanged | LastChar => &[],
    IsRangeWithinEditedChunk { .. } | Dump => &[],
  }
}
