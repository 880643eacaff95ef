//! Random scripts. Each is a row of papers: an opening and calls on its desk.
//! The generator runs the calls itself, so that it knows the desk: chunk edges,
//! the room that is left and the bytes that a report writes.

mod calls;
mod limits;
mod texts;

pub use calls::Caller;
pub use texts::{BLANKS, CHARACTERS, INVALID};

use crate::{Answer, Call, Counts, Desk, Limits, Script, random::Random};

/// `count` calls, the same for the same seed.
pub fn generate(seed: u64, count: usize) -> Vec<Call> {
  generate_within(Limits::FULL, seed, count)
}

/// The same for desks with these limits.
pub fn generate_within(limits: Limits, seed: u64, count: usize) -> Vec<Call> {
  let (random, script) = (Random::new(seed), Script::new(limits));
  let mut generator = Generator { limits, random, script, calls: Vec::new() };
  while generator.calls.len() < count {
    generator.paper();
  }
  generator.calls.truncate(count);
  generator.calls
}

struct Generator {
  limits: Limits,
  random: Random,
  script: Script,
  calls: Vec<Call>,
}

impl Generator {
  fn paper(&mut self) {
    match self.random.below(40) {
      0 => self.open_at_limit(),
      1 => self.chunk_limit(),
      2 => self.piece_limit(),
      3 => self.byte_limit(),
      4 => self.trim_at_byte_limit(),
      5 => self.trim_both_at_byte_limit(),
      6 => self.indent_at_byte_limit(),
      7 => self.long_paper(),
      8 => self.empty_paper(),
      _ => self.short_paper(),
    }
  }

  fn short_paper(&mut self) {
    let source = self.source(24);
    self.call(Call::Open { source });
    let calls = self.random.between(1, 40);
    self.any_calls(calls);
  }

  fn long_paper(&mut self) {
    let source = self.source(4_000);
    self.call(Call::Open { source });
    self.any_calls(60);
  }

  fn empty_paper(&mut self) {
    self.call(Call::Open { source: Vec::new() });
    self.any_calls(15);
  }

  fn any_calls(&mut self, count: usize) {
    for _ in 0..count {
      let call = self.any_call();
      self.call(call);
    }
  }

  /// Adds the call to the script and makes it.
  fn call(&mut self, call: Call) -> Option<Answer> {
    let answer = self.script.call(&call);
    self.calls.push(call);
    answer
  }

  fn source_len(&self) -> usize {
    self.script.desk().map_or(0, |desk| desk.magic_string().source().len())
  }

  fn counts(&self) -> Counts {
    self.script.desk().map_or(Counts::default(), Desk::counts)
  }
}
