//! A digest of a desk: `digest_of` of crates/replay_digest/specs/Digest.antt.

use desk_data::DeskData;

pub fn digest(desk: &DeskData) -> u32 {
  let mut digest = Digest(1);
  digest.section([0, 0, desk.head.len() as u32, 0, 1]);
  for chunk in &desk.chunks {
    let replaced = chunk.edited_content.is_some() as u32;
    let (intro, outro) = (chunk.intro.len() as u32, chunk.outro.len() as u32);
    digest.section([chunk.start, chunk.end, intro, outro, replaced]);
  }
  digest.section([0, 0, 0, desk.tail.len() as u32, 1]);

  digest.texts(&desk.head);
  digest.text("");
  for chunk in &desk.chunks {
    let kept = &desk.source[chunk.start as usize..chunk.end as usize];
    digest.texts(&chunk.intro);
    digest.text(chunk.edited_content.as_deref().unwrap_or(kept));
    digest.texts(&chunk.outro);
  }
  digest.text("");
  digest.texts(&desk.tail);
  digest.0
}

struct Digest(u32);

impl Digest {
  fn mix(&mut self, number: u32) {
    let mixed = u64::from(self.0) * 16_777_619 + u64::from(number);
    self.0 = (mixed % 4_294_967_291) as u32;
  }

  fn section(&mut self, numbers: [u32; 5]) {
    numbers.into_iter().for_each(|number| self.mix(number));
  }

  fn texts(&mut self, texts: &[String]) {
    texts.iter().for_each(|text| self.text(text));
  }

  /// The bytes, and a mark behind them that is no byte.
  fn text(&mut self, text: &str) {
    text.bytes().for_each(|byte| self.mix(byte.into()));
    self.mix(256);
  }
}
