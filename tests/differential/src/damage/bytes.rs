//! Bytes of the source and of the store changed, and sequences around every rule
//! of UTF-8 at many places in a text.

use oracle::{ChunkData, DeskData, random::Random};

use super::{Found, Judge};
use crate::{
  Core, Image,
  image::{decode, encode},
  layout::*,
};

const BYTES: [u8; 10] = [0, b'a', 0x80, 0xbf, 0xc2, 0xc3, 0xe0, 0xed, 0xf4, 0xff];

const SEQUENCES: [&[u8]; 24] = [
  // First and last of each length, and around the surrogates.
  b"\x7f",
  b"\xc2\x80",
  b"\xdf\xbf",
  b"\xe0\xa0\x80",
  b"\xed\x9f\xbf",
  b"\xee\x80\x80",
  b"\xef\xbf\xbf",
  b"\xf0\x90\x80\x80",
  b"\xf4\x8f\xbf\xbf",
  // Overlong.
  b"\xc0\x80",
  b"\xc1\xbf",
  b"\xe0\x9f\xbf",
  b"\xf0\x8f\xbf\xbf",
  // Surrogates, and too high.
  b"\xed\xa0\x80",
  b"\xed\xbf\xbf",
  b"\xf4\x90\x80\x80",
  b"\xf5\x80\x80\x80",
  // Following bytes without a first, and firsts without all that follow.
  b"\x80",
  b"\xbf\xbf",
  b"\xc2",
  b"\xe2\x82",
  b"\xe2\x82a",
  b"\xf0\x9f\x98",
  b"\xf0\x9f\x98a",
];

pub fn all<C: Core>(judge: &mut Judge<C>, image: &mut Image) -> Result<(), Found> {
  for place in 0..image.source.len() {
    for byte in BYTES {
      let old = std::mem::replace(&mut image.source[place], byte);
      judge.image("a byte of the source", image)?;
      image.source[place] = old;
    }
  }
  for place in used_and_some(image) {
    for byte in BYTES {
      let old = std::mem::replace(&mut image.store[place], byte);
      judge.image("a byte of the store", image)?;
      image.store[place] = old;
    }
  }
  Ok(())
}

/// The places of the texts' bytes, found by what the desk then is: changing any
/// other byte changes no text. Some others are among them.
fn used_and_some(image: &Image) -> Vec<usize> {
  let desk = decode(&image.source, &image.chunks, &image.pieces, &image.store);
  let chunks = desk.chunks.iter();
  let texts =
    chunks.flat_map(|chunk| chunk.intro.iter().chain(&chunk.outro).chain(&chunk.edited_content));
  let most: usize = texts.chain(&desk.head).chain(&desk.tail).map(String::len).sum();
  let mut places: Vec<usize> = (0..most + 1).collect();
  let most_places = image.store.len();
  places.extend([most_places / 2, most_places.wrapping_sub(1)]);
  for row in super::words::piece_rows(image) {
    let (at, n) = (image.piece(row, AT) as usize, image.piece(row, N) as usize);
    places.extend(at..at.saturating_add(n.min(8)));
  }
  places.retain(|&place| place < most_places);
  places.sort();
  places.dedup();
  places
}

/// A desk whose source, or one text, is a sequence with so many letters before
/// and behind it.
pub fn sequences<C: Core>(judge: &mut Judge<C>, random: &mut Random) -> Result<(), Found> {
  for sequence in SEQUENCES {
    for ahead in [0, 1, 2, 3, 7, 8, 15, 16, 31, 32, 33, 63, 64, 127] {
      for behind in [0, 1, 4, 8, 40] {
        let text = [&vec![b'a'; ahead], sequence, &vec![b'b'; behind]].concat();
        judge.image("sequences in the source", &mut source(&text, random))?;
        judge.image("sequences in a piece", &mut piece(&text, random))?;
        judge.image("sequences in a replacement", &mut replacement(&text, random))?;
      }
    }
  }
  Ok(())
}

fn source(text: &[u8], random: &mut Random) -> Image {
  let mut image = encode(&one_chunk(text.len()), random);
  image.source = text.to_vec();
  image
}

fn piece(text: &[u8], random: &mut Random) -> Image {
  let mut desk = one_chunk(4);
  desk.head.push("h".to_string());
  desk.chunks[0].intro.push("x".repeat(text.len()));
  let mut image = encode(&desk, random);
  let row = image.word(1, INTRO_AT) as usize;
  let at = image.piece(row, AT) as usize;
  image.store[at..][..text.len()].copy_from_slice(text);
  image
}

fn replacement(text: &[u8], random: &mut Random) -> Image {
  let mut desk = one_chunk(4);
  desk.chunks[0].edited_content = Some("x".repeat(text.len()));
  let mut image = encode(&desk, random);
  let at = image.word(1, TEXT_AT) as usize;
  image.store[at..][..text.len()].copy_from_slice(text);
  image
}

/// A desk of one chunk over a source of that length.
fn one_chunk(len: usize) -> DeskData {
  let chunk = ChunkData { end: len as u32, ..Default::default() };
  DeskData { source: "x".repeat(len), chunks: vec![chunk], ..Default::default() }
}
