//! A freezing, and calls that are refused for what is frozen, beside the Rust's reset of the
//! same range: it has nothing else that is near. And the filing that keeps a desk beside a
//! later one, and a withdrawal to the kept desk.

use differential::{
  Answer, Core, Image, Unseen,
  image::{self, Style},
  sittings::{Memory, call_bytes},
};
use oracle::{
  APPEND_LEFT,
  Call::{self, *},
  Desk, DeskData, Limits,
  number::FROZEN,
  random::Random,
};

use crate::{
  calls::{checking, heads, line, middle},
  desks,
  rust::RustCall,
  timing::least,
};

pub fn print(core: &mut impl Core) {
  for source in [2_048, 16_384] {
    for chunks in [10, 100, 500] {
      let desk = desks::edited(source, chunks);
      println!("\nparts frozen, source of {source} bytes, {chunks} chunks");
      heads("reset ns");
      let bench = Bench::new(core, &desk);
      if bench.freezing(core).is_none() {
        println!("the core freezes nothing");
        return;
      }
      bench.filing(core);
    }
  }
}

/// A desk, as the Rust has it and as memory, plain and with a frozen chunk.
struct Bench {
  plain: Image,
  frozen: Image,
  /// A record without calls.
  empty: Memory,
  /// A range inside the frozen chunk, and what the Rust takes to reset it.
  range: [u32; 2],
  reset: f64,
  /// What the check of the desk takes.
  checked: f64,
}

impl Bench {
  fn new(core: &mut impl Core, desk: &DeskData) -> Self {
    let random = &mut Random::new(1);
    let chunk = middle(desk);
    let range @ [start, end] = [chunk.start + 1, chunk.end];
    let mut marked = desk.clone();
    let frozen = marked.chunks.iter_mut().find(|other| other.start == chunk.start);
    frozen.expect("the same chunk").frozen = true;
    let rust = Desk::build(Limits::FULL, desk).magic_string().clone();
    let call = RustCall::new(&Reset { start, end });
    let reset = least(|| rust.clone(), |desk| call.make(desk));
    let mut memory = |desk| image::encode_in(Style::tight(), desk, random);
    let [plain, frozen] = [memory(desk), memory(&marked)];
    let checked = checking(core, &plain);
    Self { plain, frozen, empty: Memory::empty(random), range, reset, checked }
  }

  fn line(&self, name: &str, ours: f64) {
    line(name, self.reset, ours, ours - self.checked);
  }

  /// None where the core freezes nothing.
  fn freezing(&self, core: &mut impl Core) -> Option<()> {
    let [start, end] = self.range;
    let mut freeze = |image: &Image| {
      core.freeze(&mut image.clone().lend(), &self.empty.clone().lend(), start, end)?;
      let mut record = self.empty.clone();
      Some(least(
        || image.clone(),
        |image| {
          let answer = core.freeze(&mut image.lend(), &record.lend(), start, end);
          assert_eq!(answer.map(|answer| answer.number), Some(0));
        },
      ))
    };
    let (plain, again) = (freeze(&self.plain)?, freeze(&self.frozen)?);
    self.line("freeze", plain);
    self.line("freeze, a frozen range", again);
    for call in [Reset { start, end }, Trim { pattern: 0 }] {
      let name = call.to_string();
      let name = name.split(' ').next().unwrap_or_default();
      self.line(&format!("{name}, refused with 20"), self.refused(core, &call));
    }
    Some(())
  }

  /// Nanoseconds of a call that is refused for the frozen chunk.
  fn refused(&self, core: &mut impl Core, call: &Call) -> f64 {
    least(
      || self.frozen.clone(),
      |image| {
        let answer = core.call(&mut image.lend(), call, &Unseen::PLAIN, &mut []);
        assert_eq!(answer.number, FROZEN, "{call}");
      },
    )
  }

  /// The same insertion as the first call of a record, and as a later one; and the first one
  /// withdrawn.
  fn filing(&self, core: &mut impl Core) {
    let [at, _] = self.range;
    let call = call_bytes(&Insert { at, text: b"inserted".to_vec(), setting: APPEND_LEFT });
    let mut filed = (self.plain.clone(), self.empty.clone());
    let first = self.filed(core, &call, &filed);
    core.file(&mut filed.0.lend(), &mut filed.1.lend(), &call);
    let later = self.filed(core, &call, &filed);
    let withdrawn = least(
      || filed.clone(),
      |(image, record)| {
        let answer = core.withdraw(&mut image.lend(), &mut record.lend(), 1);
        assert_eq!(answer, Some(Answer::ACCEPTED));
      },
    );
    self.line("file, the first call", first);
    self.line("file, a later call", later);
    self.line("withdraw, the only call", withdrawn);
  }

  /// Nanoseconds of a filing on copies of this memory.
  fn filed(&self, core: &mut impl Core, call: &[u8], memory: &(Image, Memory)) -> f64 {
    least(
      || memory.clone(),
      |(image, record)| {
        let answer = core.file(&mut image.lend(), &mut record.lend(), call);
        assert_eq!(answer.map(|answer| answer.number), Some(0));
      },
    )
  }
}
