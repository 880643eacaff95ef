//! The desks on which calls are timed.

use oracle::{ChunkData, DeskData};

/// Eight bytes each: ASCII alone, and characters of one to three bytes.
pub const ASCII: &str = "abcdefg ";
pub const MIXED: &str = "aé€b ";

/// A desk with so many chunks, one in three replaced, some with pieces, a few
/// moved. The source has eight lines, so that an indent adds few chunks.
pub fn edited(source: usize, chunks: usize) -> DeskData {
  let mut text = ASCII.repeat(source / ASCII.len());
  for line in 1..8 {
    let at = line * source / 8;
    text.replace_range(at..at + 1, "\n");
  }
  let mut list: Vec<ChunkData> = (0..chunks)
    .map(|index| ChunkData {
      start: (index * source / chunks) as u32,
      end: ((index + 1) * source / chunks) as u32,
      intro: if index % 2 == 0 { vec!["<i>".to_string()] } else { Vec::new() },
      outro: if index % 5 == 0 { vec!["</i>".to_string()] } else { Vec::new() },
      edited_content: (index % 3 == 0).then(|| "replaced".to_string()),
      ..Default::default()
    })
    .collect();
  for moved in (4..chunks).step_by(25) {
    list.swap(moved, moved - 3);
  }
  DeskData {
    source: text,
    head: vec!["// head\n".to_string()],
    tail: vec!["\n// tail".to_string()],
    chunks: list,
  }
}

/// A desk whose replacements, one in two chunks, leave some 160 bytes of the store.
#[cfg(feature = "inner")]
pub fn nearly_full(chunks: usize) -> DeskData {
  let chunk = |index: usize| ChunkData {
    start: (index * 20) as u32,
    end: (index * 20 + 20) as u32,
    edited_content: (index % 2 == 0).then(|| "r".repeat(2 * 32_600 / chunks)),
    ..Default::default()
  };
  let source = "abcdefghi ".repeat(2 * chunks);
  DeskData { source, chunks: (0..chunks).map(chunk).collect(), ..Default::default() }
}

/// A desk that takes one part in `part` of every limit: each chunk has a
/// replacement and a piece on either side.
pub fn part_of_limits(part: usize, unit: &str) -> DeskData {
  let chunk = |index: usize| ChunkData {
    start: (index * 32) as u32,
    end: (index * 32 + 32) as u32,
    intro: vec![unit.repeat(2)],
    outro: vec![unit.repeat(2)],
    edited_content: Some(unit.repeat(4)),
    ..Default::default()
  };
  DeskData {
    source: unit.repeat(16_384 / part / unit.len()),
    chunks: (0..512 / part).map(chunk).collect(),
    ..Default::default()
  }
}
