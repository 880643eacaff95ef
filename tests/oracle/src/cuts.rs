//! Document 02's L4 written out: what each cut of an edit does, on a desk as data. The
//! answers themselves have the growth in chunks of the Rust's desk; `check` holds the two
//! together.

use desk_data::DeskData;

use crate::Call;

/// What a cut did.
#[derive(Debug, Clone, Copy, PartialEq, Eq)]
pub enum Cut {
  /// Two chunks of one.
  Made,
  /// A chunk ends there already, wherever its neighbour stands.
  Edge,
  /// It lay at an end of the source, or past it.
  Outside,
  /// It lay inside a non-empty replacement.
  Refused,
}

/// The cuts of an edit that comes to them, in order, up to a refused one.
pub fn cuts(desk: &DeskData, call: &Call) -> Vec<Cut> {
  let mut chunks = Chunks::of(desk);
  let mut done = Vec::new();
  for at in positions(desk, call) {
    done.push(chunks.cut(at));
    if done.ends_with(&[Cut::Refused]) {
      break;
    }
  }
  done
}

/// How many of them make two chunks.
pub fn made(desk: &DeskData, call: &Call) -> usize {
  cuts(desk, call).iter().filter(|&&cut| cut == Cut::Made).count()
}

/// Where an edit cuts. One without positions does not cut.
fn positions(desk: &DeskData, call: &Call) -> Vec<u32> {
  match call {
    Call::IndentWith { exclude, .. } => line_starts(desk, exclude),
    _ if call.is_edit() => call.positions(),
    _ => Vec::new(),
  }
}

/// Where an indent inserts: at the first characters of lines that stand in chunks
/// without a replacement.
fn line_starts(desk: &DeskData, exclude: &[u32]) -> Vec<u32> {
  let excluded = |at: u32| exclude.chunks_exact(2).any(|pair| pair[0] <= at && at < pair[1]);
  let mut begins = true;
  let mut begins_line = |character: char| match character {
    '\n' => {
      begins = true;
      false
    }
    '\r' => false,
    _ => std::mem::take(&mut begins),
  };
  let mut starts = Vec::new();
  for character in desk.head.iter().flat_map(|piece| piece.chars()) {
    begins_line(character);
  }
  for chunk in &desk.chunks {
    let content = chunk.edited_content.as_deref();
    let part = &desk.source[chunk.start as usize..chunk.end as usize];
    for (place, character) in content.unwrap_or(part).char_indices() {
      let at = if content.is_some() { chunk.start } else { chunk.start + place as u32 };
      if !excluded(at) && begins_line(character) && content.is_none() {
        starts.push(at);
      }
    }
  }
  starts
}

/// The spans of a desk's chunks, each with whether it refuses a cut.
struct Chunks {
  len: u32,
  spans: Vec<(u32, u32, bool)>,
}

impl Chunks {
  fn of(desk: &DeskData) -> Self {
    let filled = |text: &Option<String>| text.as_ref().is_some_and(|text| !text.is_empty());
    let chunks = desk.chunks.iter();
    let spans = chunks.map(|chunk| (chunk.start, chunk.end, filled(&chunk.edited_content)));
    Self { len: desk.source.len() as u32, spans: spans.collect() }
  }

  fn cut(&mut self, at: u32) -> Cut {
    if at == 0 || at >= self.len {
      return Cut::Outside;
    }
    if self.spans.iter().any(|&(_, end, _)| end == at) {
      return Cut::Edge;
    }
    let held = self.spans.iter_mut().find(|(start, end, _)| *start < at && at < *end);
    let (_, end, filled) = held.expect("the spans cover the source");
    if *filled {
      return Cut::Refused;
    }
    let second = (at, std::mem::replace(end, at), false);
    self.spans.push(second);
    Cut::Made
  }
}
