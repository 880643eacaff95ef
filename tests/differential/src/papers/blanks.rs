//! Trims and indents on small desks made by hand whose texts are blanks, line
//! ends and their neighbours: in the head, intros, contents, outros and the tail,
//! in the source and in replacements. Each call gets the desk of the start.

use oracle::{Call, ChunkData, DeskData, random::Random};

use super::Caller;
use crate::{Made, Paper, Start};

/// The 25 characters of White_Space.
pub const BLANKS: &str = "\t\n\u{b}\u{c}\r \u{85}\u{a0}\u{1680}\u{2000}\u{2001}\u{2002}\u{2003}\u{2004}\u{2005}\u{2006}\u{2007}\u{2008}\u{2009}\u{200a}\u{2028}\u{2029}\u{202f}\u{205f}\u{3000}";

/// The characters beside them that are not.
const NEIGHBOURS: &str = "\u{8}\u{e}\u{1f}!\u{84}\u{86}\u{9f}\u{a1}\u{167f}\u{1681}\u{1fff}\u{200b}\u{2027}\u{202a}\u{202e}\u{2030}\u{205e}\u{2060}\u{2fff}\u{3001}";

const LINES: &str = "\n\n\r\r\t  ab";

pub fn paper(seed: u64) -> Paper {
  let mut random = Random::new(seed);
  let desk = desk(&mut random);
  let mut caller = Caller::new(desk.clone(), random.number());
  let mut calls = vec![Call::TrimLines];
  for pattern in 0..2 {
    calls.extend([Call::Trim { pattern }, Call::TrimStart { pattern }, Call::TrimEnd { pattern }]);
  }
  for indentor in [None, Some(text(&mut random))] {
    calls.push(Call::IndentWith { indentor: indentor.clone(), exclude: Vec::new() });
    for _ in 0..4 {
      calls.push(Call::IndentWith { indentor: indentor.clone(), exclude: caller.pairs() });
    }
  }
  let calls = calls.into_iter().map(|call| Made { call, seed: random.number() }).collect();
  let start = Start::Desk { desk, seed: random.number() };
  Paper::each(start, calls)
}

impl Caller {
  /// One to three pairs of positions between characters: they overlap, touch,
  /// are reversed, or pass the end.
  fn pairs(&mut self) -> Vec<u32> {
    let past = self.data.source.len() as u32 + 2;
    (0..2 * self.random.between(1, 3))
      .map(|_| match self.random.below(8) {
        0 => past,
        1 | 2 => self.edge(),
        _ => self.between_characters(),
      })
      .collect()
  }
}

fn desk(random: &mut Random) -> DeskData {
  let mut source = String::new();
  let mut chunks = Vec::new();
  for _ in 0..random.between(1, 4) {
    let start = source.len() as u32;
    source.push_str(&some(random));
    chunks.push(ChunkData { start, end: source.len() as u32, ..Default::default() });
  }
  for chunk in &mut chunks {
    chunk.intro = list(random);
    chunk.outro = list(random);
    chunk.edited_content = random.one_in(3).then(|| any(random));
  }
  if random.one_in(3) {
    let (one, other) = (random.below(chunks.len()), random.below(chunks.len()));
    chunks.swap(one, other);
  }
  DeskData { source, head: list(random), tail: list(random), chunks }
}

fn list(random: &mut Random) -> Vec<String> {
  (0..[0, 0, 1, 1, 2, 3][random.below(6)]).map(|_| any(random)).collect()
}

fn any(random: &mut Random) -> String {
  if random.one_in(4) { String::new() } else { some(random) }
}

/// One to three characters, most often blanks alone.
fn some(random: &mut Random) -> String {
  let characters = random.pick(&[BLANKS, BLANKS, LINES, NEIGHBOURS]);
  let characters: Vec<char> = characters.chars().collect();
  (0..random.between(1, 3)).map(|_| characters[random.below(characters.len())]).collect()
}

fn text(random: &mut Random) -> Vec<u8> {
  any(random).into_bytes()
}
