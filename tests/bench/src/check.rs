//! The check `well_formed` alone, beside std's UTF-8 check and a copy of as many
//! bytes.

use std::hint::black_box;

use differential::{
  Answer, Core,
  image::{Style, encode_in},
};
use oracle::{DeskData, random::Random};

use crate::{desks, timing::least};

pub fn print(core: &mut impl Core) {
  println!("\nwell_formed, in ns per byte of source, texts and rows in use");
  print!("{:<30} {:>10} {:>10}", "", "bytes", "ns");
  println!(" {:>10} {:>10} {:>10}", "ns/byte", "from_utf8", "copy");
  for (texts, unit) in [("ASCII", desks::ASCII), ("mixed", desks::MIXED)] {
    for (part, share) in [(8, "1/8"), (2, "1/2"), (1, "all")] {
      line(
        core,
        &format!("{share} of the limits, {texts}"),
        &desks::part_of_limits(part, unit),
        unit,
      );
    }
  }
}

fn line(core: &mut impl Core, name: &str, desk: &DeskData, unit: &str) {
  let mut image = encode_in(Style::tight(), desk, &mut Random::new(1));
  let bytes = bytes(desk);
  let mut answer = Answer::ACCEPTED;
  let check = least(|| (), |()| answer = core.well_formed(&image.lend()));
  assert_eq!(answer, Answer::ACCEPTED, "a desk within the limits");

  let (utf8, copied) = floor(bytes, unit);
  let per_byte = |took: f64| took / bytes as f64;
  print!("{name:<30} {bytes:>10} {check:>10.0}");
  println!(" {:>10.3} {:>10.3} {:>10.3}", per_byte(check), per_byte(utf8), per_byte(copied));
}

/// Nanoseconds of std's UTF-8 check and of a copy, of so many bytes.
pub fn floor(bytes: usize, unit: &str) -> (f64, f64) {
  let text = unit.repeat(bytes / unit.len()).into_bytes();
  let mut copy = vec![0; text.len()];
  let utf8 = from_utf8(&text);
  let copied = least(|| (), |()| black_box(&mut copy).copy_from_slice(black_box(&text)));
  (utf8, copied)
}

/// Nanoseconds of std's UTF-8 check of a text.
pub fn from_utf8(text: &[u8]) -> f64 {
  least(|| (), |()| assert!(std::str::from_utf8(black_box(text)).is_ok()))
}

/// What a check has to look at: 12 words for row 0 and each chunk, 2 for each
/// piece, the source and the texts.
pub fn bytes(desk: &DeskData) -> usize {
  let chunks = desk.chunks.iter();
  let texts = chunks.clone().flat_map(|chunk| chunk.intro.iter().chain(&chunk.outro));
  let (pieces, in_pieces) = texts.fold((0, 0), |(n, len), text| (n + 1, len + text.len()));
  let replaced: usize = chunks.flat_map(|chunk| &chunk.edited_content).map(String::len).sum();
  48 * (1 + desk.chunks.len()) + 8 * pieces + desk.source.len() + in_pieces + replaced
}
