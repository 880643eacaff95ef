//! The check of a text: an opening checks its source and writes two rows. Beside
//! it std's check of the same text.

use differential::{
  Core,
  image::{self, Style},
};
use oracle::{Call, ChunkData, DeskData, random::Random};

use crate::{calls, check, desks};

const LEN: usize = 16_384;

pub fn print(core: &mut impl Core) {
  println!("\nthe check of a text of some {LEN} bytes, as the source of an opening");
  println!("{:<30} {:>10} {:>10} {:>8}", "", "ns/byte", "from_utf8", "ratio");
  line(core, "ASCII", desks::ASCII.repeat(LEN / desks::ASCII.len()));
  line(core, "one, two, three, in turns", desks::MIXED.repeat(LEN / desks::MIXED.len()));
  line(core, "one to four, at random", at_random(&['a', 'é', '€', '😀']));
  line(core, "two bytes each", "é".repeat(LEN / 2));
  line(core, "three bytes each", "€".repeat(LEN / 3));
  line(core, "four bytes each", "😀".repeat(LEN / 4));
}

fn line(core: &mut impl Core, name: &str, text: String) {
  let end = text.len() as u32;
  let theirs = check::from_utf8(text.as_bytes());
  let desk = DeskData {
    chunks: vec![ChunkData { end, ..Default::default() }],
    source: text,
    ..Default::default()
  };
  let image = image::encode_in(Style::tight(), &desk, &mut Random::new(1));
  let ours = calls::time(core, &image, &Call::Open { source: Vec::new() });
  let per_byte = |took: f64| took / f64::from(end);
  print!("{name:<30} {:>10.3} {:>10.3}", per_byte(ours), per_byte(theirs));
  println!(" {:>8.2}", ours / theirs);
}

/// A text of nearly `LEN` bytes with these characters as they come.
fn at_random(characters: &[char]) -> String {
  let mut random = Random::new(1);
  let mut text = String::new();
  while text.len() + 4 <= LEN {
    text.push(characters[random.below(characters.len())]);
  }
  text
}
