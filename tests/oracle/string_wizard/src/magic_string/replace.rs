// Stand-in for src/magic_string/replace.rs, which was not given: lib.rs exports
// `ReplaceOptions` from it. As a child module of magic_string it sees the private
// fields, so it also holds what the oracle needs: any desk as data, a desk from
// any such data, the counts, single cuts, and a check of links and maps.

use std::collections::VecDeque;

use desk_data::{ChunkData, Counts, DeskData};

use super::MagicString;
use crate::{
  CowStr,
  chunk::{Chunk, EditOptions},
  span::Span,
  type_aliases::IndexChunks,
};

pub struct ReplaceOptions;

impl MagicString<'static> {
  /// The desk that `data` describes, whatever its list order, pieces and
  /// replacements. Its spans must cover the source as a desk's do.
  pub fn build(data: &DeskData) -> Self {
    let mut desk = Self::new(data.source.clone());
    desk.intro = pieces(&data.head);
    desk.outro = pieces(&data.tail);
    desk.chunks = IndexChunks::with_capacity(data.chunks.len());
    desk.chunk_by_start.clear();
    desk.chunk_by_end.clear();
    let mut prev = None;
    for chunk in &data.chunks {
      let idx = desk.chunks.push(Chunk {
        intro: pieces(&chunk.intro),
        outro: pieces(&chunk.outro),
        span: Span(chunk.start, chunk.end),
        edited_content: chunk.edited_content.clone().map(CowStr::from),
        next: None,
        prev,
        keep_in_mappings: false,
      });
      match prev {
        Some(prev_idx) => desk.chunks[prev_idx].next = Some(idx),
        None => desk.first_chunk_idx = idx,
      }
      desk.chunk_by_start.insert(chunk.start, idx);
      desk.chunk_by_end.insert(chunk.end, idx);
      prev = Some(idx);
    }
    desk.last_chunk_idx = prev.expect("a desk has a chunk");
    desk.last_searched_chunk_idx = desk.first_chunk_idx;
    desk
  }
}

impl MagicString<'_> {
  /// The desk as data, without marks.
  pub fn dump(&self) -> DeskData {
    DeskData {
      source: self.source.to_string(),
      head: texts(&self.intro),
      tail: texts(&self.outro),
      chunks: self.iter_chunks().map(chunk_data).collect(),
    }
  }

  /// What the desk holds.
  pub fn counts(&self) -> Counts {
    let mut counts = Counts { chunks: self.chunks.len(), pieces: 0, bytes: 0 };
    let chunk_lists = self.iter_chunks().flat_map(|chunk| [&chunk.intro, &chunk.outro]);
    for list in chunk_lists.chain([&self.intro, &self.outro]) {
      counts.pieces += list.len();
      counts.bytes += list.iter().map(|piece| piece.len()).sum::<usize>();
    }
    let replacements = self.iter_chunks().filter_map(|chunk| chunk.edited_content.as_ref());
    counts.bytes += replacements.map(|text| text.len()).sum::<usize>();
    counts
  }

  /// A cut: `split_at`, which is private.
  pub fn cut(&mut self, at: u32) -> Result<(), String> {
    self.split_at(at)
  }

  /// One turn of the loop in `remove` on an empty source, where that loop never
  /// ends: it edits the one chunk.
  pub fn remove_empty_source(&mut self) {
    let edit = EditOptions { overwrite: true, store_name: false };
    self.chunks[self.first_chunk_idx].edit("".into(), edit);
  }

  /// Whether the list is linked both ways and holds every chunk once, and the
  /// maps by start and by end name each chunk.
  pub fn links_hold(&self) -> bool {
    let mut seen = 0;
    let mut prev = None;
    let mut next = Some(self.first_chunk_idx);
    while let Some(idx) = next {
      let chunk = &self.chunks[idx];
      seen += 1;
      if seen > self.chunks.len()
        || chunk.prev != prev
        || self.chunk_by_start.get(&chunk.start()) != Some(&idx)
        || self.chunk_by_end.get(&chunk.end()) != Some(&idx)
      {
        return false;
      }
      prev = next;
      next = chunk.next;
    }
    seen == self.chunks.len()
      && prev == Some(self.last_chunk_idx)
      && self.chunk_by_start.len() == seen
      && self.chunk_by_end.len() == seen
  }
}

fn pieces(texts: &[String]) -> VecDeque<CowStr<'static>> {
  texts.iter().cloned().map(CowStr::from).collect()
}

fn texts(pieces: &VecDeque<CowStr>) -> Vec<String> {
  pieces.iter().map(|piece| piece.to_string()).collect()
}

fn chunk_data(chunk: &Chunk) -> ChunkData {
  ChunkData {
    start: chunk.start(),
    end: chunk.end(),
    frozen: false,
    intro: texts(&chunk.intro),
    outro: texts(&chunk.outro),
    edited_content: chunk.edited_content.as_ref().map(|text| text.to_string()),
  }
}
