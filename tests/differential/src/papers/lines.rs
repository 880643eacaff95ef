//! Line counts of small desks made by hand, whose texts end in line feeds, carriage
//! returns and others: in the head, intros, the source, replacements, outros and the
//! tail. Behind a place of each desk all is empty, so that any may have the last byte.

use oracle::{Call, ChunkData, DeskData, random::Random};

use crate::{Made, Paper, Start};

const TEXTS: [&str; 8] = ["", "\n", "a", "a\n", "\r", "\r\n", "\n\n", "a\r"];

pub fn paper(seed: u64) -> Paper {
  let mut random = Random::new(seed);
  let desk = desk(&mut random);
  let calls = [Call::LineCount, Call::ToString { room: None }];
  let calls = calls.map(|call| Made { call, seed: random.number() }).into();
  Paper::new(Start::Desk { desk, seed: random.number() }, calls)
}

fn desk(random: &mut Random) -> DeskData {
  let (source, mut chunks) = covered(random);
  let places = random.between(0, 2 + 3 * chunks.len());
  let mut texts = Texts { random, places };
  let head = texts.list();
  for chunk in &mut chunks {
    chunk.intro = texts.list();
    chunk.edited_content = texts.replacement();
    chunk.outro = texts.list();
  }
  DeskData { source, head, tail: texts.list(), chunks }
}

/// A source and the one to three chunks over it, sometimes with the first behind the
/// others; or an empty source.
fn covered(random: &mut Random) -> (String, Vec<ChunkData>) {
  let mut source = String::new();
  if random.one_in(8) {
    return (source, vec![ChunkData::default()]);
  }
  let mut chunks = Vec::new();
  for _ in 0..random.between(1, 3) {
    let start = source.len() as u32;
    source.push_str(random.pick(&TEXTS[1..]));
    chunks.push(ChunkData { start, end: source.len() as u32, ..Default::default() });
  }
  if random.one_in(3) {
    chunks.rotate_left(1);
  }
  (source, chunks)
}

/// Gives a desk its texts from the front on: any in the first places, empty ones behind.
struct Texts<'a> {
  random: &'a mut Random,
  places: usize,
}

impl Texts<'_> {
  /// Whether the next place may have bytes.
  fn next(&mut self) -> bool {
    let next = self.places > 0;
    self.places = self.places.saturating_sub(1);
    next
  }

  fn text(&mut self, any: bool) -> String {
    if any { self.random.pick(&TEXTS).to_string() } else { String::new() }
  }

  fn list(&mut self) -> Vec<String> {
    let any = self.next();
    (0..self.random.below(4)).map(|_| self.text(any)).collect()
  }

  /// What stands in place of the chunk's source, if anything does.
  fn replacement(&mut self) -> Option<String> {
    let any = self.next();
    (!any || self.random.one_in(2)).then(|| self.text(any))
  }
}
