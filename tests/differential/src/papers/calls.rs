//! Random calls on a desk as it now is. The calls are made on the oracle's side
//! as they are chosen.

use oracle::{Call, Desk, DeskData, Limits, apply, generate::Caller as _, random::Random};

use crate::{Made, layout::*, made};

pub struct Caller {
  pub(super) random: Random,
  pub(super) data: DeskData,
  desk: Desk,
}

impl Caller {
  pub fn new(data: DeskData, seed: u64) -> Self {
    Self::within(Limits::FULL, data, seed)
  }

  /// On a desk with these limits.
  pub fn within(limits: Limits, data: DeskData, seed: u64) -> Self {
    let desk = Desk::build(limits, &data);
    Self { random: Random::new(seed), data, desk }
  }

  pub fn call(&mut self) -> Made {
    let call = self.any();
    self.made(call)
  }

  /// A call on the desk, no opening.
  pub fn call_on_desk(&mut self) -> Made {
    let call = self.any_on_desk();
    self.made(call)
  }

  /// Makes the call on the oracle's side.
  pub fn made(&mut self, call: Call) -> Made {
    apply(&mut self.desk, &call);
    if call.is_edit() {
      self.data = self.desk.data();
    }
    Made { call, seed: self.random.number() }
  }

  /// Changes the oracle's desk in another way than by a call.
  pub fn change<T>(&mut self, change: impl FnOnce(&mut Desk) -> T) -> T {
    let changed = change(&mut self.desk);
    self.data = self.desk.data();
    changed
  }

  fn any(&mut self) -> Call {
    match self.random.below(200) {
      0 => Call::Open { source: self.source() },
      choice => self.on_desk(choice),
    }
  }

  fn any_on_desk(&mut self) -> Call {
    let choice = self.random.between(1, 199);
    self.on_desk(choice)
  }

  fn on_desk(&mut self, choice: usize) -> Call {
    match choice {
      0..=7 => self.replace_chunk(),
      8..=109 => self.edit(),
      110..=134 => self.trim_or_indent(),
      135..=164 => self.filling(),
      _ => self.exported_report(),
    }
  }

  /// A dump is no exported call.
  fn exported_report(&mut self) -> Call {
    loop {
      match self.report() {
        Call::Dump => (),
        call => return call,
      }
    }
  }

  /// A source of any length, at and past the limit too, UTF-8 or not.
  pub fn source(&mut self) -> Vec<u8> {
    let len = [0, 5, 20, 200, MOST_SOURCE, MOST_SOURCE + 1][self.random.below(6)];
    if self.random.one_in(6) {
      return made::invalid(len, &mut self.random);
    }
    made::text(len, &mut self.random).into_bytes()
  }

  /// Replaces one chunk by a text that takes all bytes that are left with those
  /// it frees, or one more; or by a short one.
  pub(super) fn replace_chunk(&mut self) -> Call {
    let chunk = &self.data.chunks[self.random.below(self.data.chunks.len())];
    let (start, end) = (chunk.start, chunk.end);
    let overwrite = self.random.below(2) as u32;
    let mut freed = chunk.edited_content.as_ref().map_or(0, String::len);
    if overwrite != 0 {
      freed += chunk.intro.iter().chain(&chunk.outro).map(String::len).sum::<usize>();
    }
    let text = if self.random.one_in(4) {
      let len = self.bytes_left() + freed + self.random.below(2);
      made::text(len, &mut self.random).into_bytes()
    } else {
      self.text()
    };
    Call::UpdateWith { start, end, overwrite, text }
  }

  pub fn bytes_left(&self) -> usize {
    self.desk.limits().bytes - self.desk.counts().bytes
  }
}

impl oracle::generate::Caller for Caller {
  fn random(&mut self) -> &mut Random {
    &mut self.random
  }

  /// At an edge of a chunk, beside one, inside a chunk, at the source's end, or
  /// past it.
  fn position(&mut self) -> u32 {
    let len = self.data.source.len() as u32;
    match self.random.below(16) {
      0..=5 => self.edge(),
      6 => self.edge() + 1,
      7 => self.edge().saturating_sub(1),
      8..=11 => self.between_characters(),
      12 => self.random.between(0, len as usize) as u32,
      13 => len,
      14 => len + self.random.between(1, 3) as u32,
      _ => [0, 0, 0, u32::MAX, 0x8000_0000, 0x1_0000][self.random.below(6)],
    }
  }

  /// Two positions, most often with the start first; sometimes a chunk's own.
  fn range(&mut self) -> (u32, u32) {
    if self.random.one_in(6) {
      let chunk = self.random.below(self.data.chunks.len());
      return (self.data.chunks[chunk].start, self.data.chunks[chunk].end);
    }
    let (one, other) = (self.position(), self.position());
    if self.random.one_in(10) { (one, other) } else { (one.min(other), one.max(other)) }
  }

  /// A text to insert: most often short or empty, sometimes as long as there is
  /// room for, or one longer, rarely not UTF-8 or much too long.
  fn text(&mut self) -> Vec<u8> {
    let left = self.bytes_left();
    let at_limit = if left < 200 { 6 } else { 200 };
    let len = if self.random.one_in(at_limit) {
      (left + self.random.below(3)).saturating_sub(1)
    } else {
      match self.random.below(300) {
        0 => {
          let most = self.desk.limits().bytes;
          [most, most + 1, 70_000][self.random.below(3)]
        }
        1..=70 => 0,
        71..=270 => self.random.between(1, 5),
        _ => self.random.between(6, 60),
      }
    };
    if self.random.one_in(40) {
      return made::invalid(len, &mut self.random);
    }
    made::text(len, &mut self.random).into_bytes()
  }

  fn written(&mut self, call: &Call) -> u32 {
    apply(&mut self.desk, call).value
  }

  /// Sometimes many.
  fn excluded(&mut self) -> usize {
    match self.random.below(200) {
      0 => 2 * self.random.between(100, 2_000),
      other => [0, 0, 0, 2, 2, 4, 6, 1, 3][other % 9],
    }
  }
}
