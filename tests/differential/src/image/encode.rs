//! A desk as memory, with every freedom that the layout leaves: rows in any
//! order, runs and texts anywhere apart, empty texts anywhere, marks of any number
//! but 0, junk in all words and bytes that are not looked at.

use oracle::{ChunkData, DeskData, random::Random};

use super::{
  Image,
  places::{places, shuffle},
};
use crate::{Sizes, layout::*};

/// How blocks lie in their room: one behind the other from the front or up to
/// the back, or anywhere.
#[derive(Debug, Clone, Copy, PartialEq, Eq)]
pub enum Fill {
  Front,
  Back,
  Apart,
}

/// The choices for one image.
#[derive(Debug, Clone, Copy)]
pub struct Style {
  sizes: Sizes,
  runs: Fill,
  texts: Fill,
  rows_in_list_order: bool,
}

impl Style {
  pub fn any(random: &mut Random) -> Self {
    let mut fill =
      || [Fill::Front, Fill::Back, Fill::Apart, Fill::Apart][(random.number() >> 32) as usize % 4];
    let (runs, texts) = (fill(), fill());
    Self { sizes: Sizes::FULL, runs, texts, rows_in_list_order: random.one_in(4) }
  }

  /// No gaps, so that a step of one row or byte meets a neighbour.
  pub fn tight() -> Self {
    let (runs, texts) = (Fill::Front, Fill::Front);
    Self { sizes: Sizes::FULL, runs, texts, rows_in_list_order: false }
  }

  /// As calls leave a desk, but with all texts up to the top of the store.
  pub fn at_top() -> Self {
    Self { texts: Fill::Back, rows_in_list_order: true, ..Self::tight() }
  }

  /// The same in tables of these sizes.
  pub fn sized(self, sizes: Sizes) -> Self {
    Self { sizes, ..self }
  }
}

/// Memory for the desk, of any style. The limits are not asked: a desk past them
/// is placed too, as long as it has room.
pub fn encode(desk: &DeskData, random: &mut Random) -> Image {
  let style = Style::any(random);
  encode_in(style, desk, random)
}

/// Memory for the desk in this style.
pub fn encode_in(style: Style, desk: &DeskData, random: &mut Random) -> Image {
  let image = Image::junk_in(style.sizes, desk.source.as_bytes().to_vec(), random);
  let mut rows: Vec<usize> = (1..=desk.chunks.len()).collect();
  if !style.rows_in_list_order {
    shuffle(&mut rows, random);
  }
  let mut encoder = Encoder { image, texts: Texts::place(style, desk, random) };
  encoder.links(&rows);
  encoder.lists(style, desk, &rows, random);
  for (chunk, &row) in desk.chunks.iter().zip(&rows) {
    encoder.chunk(chunk, row);
    encoder.mark(chunk, row, random);
  }
  encoder.image
}

/// The lists of a desk: those of row 0, then those of each chunk.
fn lists(desk: &DeskData) -> impl Iterator<Item = &Vec<String>> {
  let chunks = desk.chunks.iter().flat_map(|chunk| [&chunk.intro, &chunk.outro]);
  [&desk.head, &desk.tail].into_iter().chain(chunks)
}

fn replacements(desk: &DeskData) -> impl Iterator<Item = &String> {
  desk.chunks.iter().filter_map(|chunk| chunk.edited_content.as_ref())
}

/// Places of the texts, in the order in which the encoder asks for them.
struct Texts(std::vec::IntoIter<usize>);

impl Texts {
  fn place(style: Style, desk: &DeskData, random: &mut Random) -> Self {
    let texts = lists(desk).flatten().chain(replacements(desk));
    let lengths: Vec<usize> = texts.map(String::len).collect();
    Self(places(&lengths, style.sizes.store, style.texts, random).into_iter())
  }
}

struct Encoder {
  image: Image,
  texts: Texts,
}

impl Encoder {
  /// The count, and the ring through the rows.
  fn links(&mut self, rows: &[usize]) {
    *self.image.word_mut(0, START) = rows.len() as u32;
    let ring: Vec<usize> = [0].iter().chain(rows).chain(&[0]).copied().collect();
    for pair in ring.windows(2) {
      *self.image.word_mut(pair[0], NEXT) = pair[1] as u32;
      *self.image.word_mut(pair[1], PREV) = pair[0] as u32;
    }
  }

  /// The runs of all lists with their texts. Where an empty list would begin is
  /// left as junk.
  fn lists(&mut self, style: Style, desk: &DeskData, rows: &[usize], random: &mut Random) {
    let lengths: Vec<usize> = lists(desk).map(Vec::len).collect();
    let runs = places(&lengths, style.sizes.piece_rows, style.runs, random);
    let rows = [0].iter().chain(rows);
    let words = rows.flat_map(|&row| [(row, INTRO_AT, INTRO_N), (row, OUTRO_AT, OUTRO_N)]);
    for ((list, run), (row, at, n)) in lists(desk).zip(runs).zip(words) {
      *self.image.word_mut(row, n) = list.len() as u32;
      if !list.is_empty() {
        *self.image.word_mut(row, at) = run as u32;
      }
      for (offset, text) in list.iter().enumerate() {
        let place = self.text(text);
        *self.image.piece_mut(run + offset, AT) = place;
        *self.image.piece_mut(run + offset, N) = text.len() as u32;
      }
    }
  }

  fn chunk(&mut self, chunk: &ChunkData, row: usize) {
    *self.image.word_mut(row, START) = chunk.start;
    *self.image.word_mut(row, END) = chunk.end;
    match &chunk.edited_content {
      None => *self.image.word_mut(row, TEXT_AT) = NONE,
      Some(text) => {
        *self.image.word_mut(row, TEXT_AT) = self.text(text);
        *self.image.word_mut(row, TEXT_N) = text.len() as u32;
      }
    }
  }

  fn mark(&mut self, chunk: &ChunkData, row: usize, random: &mut Random) {
    *self.image.word_mut(row, MARK) = match chunk.frozen {
      false => 0,
      true => [1, 1, 2, 0x100, 0x1_0000, 0x8000_0000, u32::MAX][random.below(7)],
    };
  }

  /// Writes the text to its place, which it gives.
  fn text(&mut self, text: &str) -> u32 {
    let place = self.texts.0.next().expect("every text has a place");
    self.image.store[place..][..text.len()].copy_from_slice(text.as_bytes());
    place as u32
  }
}
