//! Desks made by hand, most of which no sequence of calls reaches: any spans that
//! cover the source, in any list order, with any pieces and replacements.

mod aim;
mod texts;

pub use aim::Aim;
use oracle::{ChunkData, DeskData, random::Random};
pub use texts::{invalid, text};

/// Any desk within the limits, most often a small one.
pub fn desk(random: &mut Random) -> DeskData {
  let aim = Aim::any(random);
  make(aim, random)
}

/// A desk that holds what `aim` says, or less where there is no place for it.
pub fn make(aim: Aim, random: &mut Random) -> DeskData {
  let source = text(aim.source, random);
  over(source, aim, random)
}

/// The same over this source.
pub fn over(source: String, aim: Aim, random: &mut Random) -> DeskData {
  let mut chunks = cover(&source, aim.chunks, random);
  reorder(&mut chunks, random);
  let mut desk = DeskData { source, head: Vec::new(), tail: Vec::new(), chunks };
  replace(&mut desk, random);
  insert(&mut desk, aim.pieces, random);
  fill(&mut desk, aim.bytes, random);
  desk
}

/// The desk with marks: on some chunks or on all, on one at least.
pub fn marked(mut desk: DeskData, random: &mut Random) -> DeskData {
  let one_in = [1, 2, 4, 8, usize::MAX][random.below(5)];
  let one = random.below(desk.chunks.len());
  for (place, chunk) in desk.chunks.iter_mut().enumerate() {
    chunk.frozen = random.one_in(one_in) || place == one;
  }
  desk
}

/// Chunks that cover the source, cut between characters.
fn cover(source: &str, count: usize, random: &mut Random) -> Vec<ChunkData> {
  let mut cuts: Vec<usize> = (1..source.len()).filter(|&at| source.is_char_boundary(at)).collect();
  while cuts.len() > count - 1 {
    cuts.swap_remove(random.below(cuts.len()));
  }
  cuts.extend([0, source.len()]);
  cuts.sort();
  cuts
    .windows(2)
    .map(|span| ChunkData { start: span[0] as u32, end: span[1] as u32, ..Default::default() })
    .collect()
}

/// As in the source, backwards, turned round, with a few swaps, or in any order.
fn reorder(chunks: &mut [ChunkData], random: &mut Random) {
  let count = chunks.len();
  let swaps = match random.below(6) {
    0 | 1 => 0,
    2 => {
      chunks.reverse();
      0
    }
    3 => {
      chunks.rotate_left(random.below(count));
      0
    }
    4 => 2,
    _ => count,
  };
  for _ in 0..swaps {
    chunks.swap(random.below(count), random.below(count));
  }
}

/// Gives chunks an empty replacement: none of them, some or all.
fn replace(desk: &mut DeskData, random: &mut Random) {
  let one_in = [1, 2, 2, 4, usize::MAX][random.below(5)];
  for chunk in &mut desk.chunks {
    if random.one_in(one_in) {
      chunk.edited_content = Some(String::new());
    }
  }
}

/// Adds empty pieces, to lists at random or to one.
fn insert(desk: &mut DeskData, count: usize, random: &mut Random) {
  let lists = 2 + 2 * desk.chunks.len();
  let one = random.one_in(8).then(|| random.below(lists));
  for _ in 0..count {
    let list = one.unwrap_or_else(|| random.below(lists));
    let list = match list {
      0 => &mut desk.head,
      1 => &mut desk.tail,
      _ if list % 2 == 0 => &mut desk.chunks[(list - 2) / 2].intro,
      _ => &mut desk.chunks[(list - 2) / 2].outro,
    };
    list.push(String::new());
  }
}

/// Fills the texts with so many bytes together.
fn fill(desk: &mut DeskData, bytes: usize, random: &mut Random) {
  let mut texts: Vec<&mut String> = desk.head.iter_mut().chain(&mut desk.tail).collect();
  for chunk in &mut desk.chunks {
    texts.extend(chunk.intro.iter_mut().chain(&mut chunk.outro).chain(&mut chunk.edited_content));
  }
  // Some stay empty.
  let one_in = random.between(2, 5);
  let some = |random: &mut Random| !random.one_in(one_in);
  texts.retain(|_| some(random));
  let mut ends: Vec<usize> = texts.iter().map(|_| random.between(0, bytes)).collect();
  ends.sort();
  if let Some(last) = ends.last_mut() {
    *last = bytes;
  }
  let mut start = 0;
  for (place, end) in texts.into_iter().zip(ends) {
    *place = text(end - start, random);
    start = end;
  }
}
