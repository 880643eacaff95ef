//! Every call at every position of one small desk made by hand, and one byte
//! past its end, each from that desk.

use oracle::{Call, Desk, Limits, apply, insertions, random::Random};

use crate::{
  Made, Paper, Start,
  made::{Aim, make, text},
};

pub fn paper(random: &mut Random) -> Paper {
  let aim = Aim { source: random.below(8), ..Aim::small(random) };
  let desk = make(aim, random);
  let mut positions: Vec<u32> = (0..=desk.source.len() as u32 + 1).collect();
  positions.push(u32::MAX);

  let mut sweep = Sweep { random, calls: Vec::new() };
  sweep.single(&positions);
  sweep.pairs(&positions);
  sweep.triples(&positions);
  sweep.buffers(&mut Desk::build(Limits::FULL, &desk));
  let Sweep { calls, .. } = sweep;
  let start = Start::Desk { desk, seed: random.number() };
  Paper::each(start, calls)
}

struct Sweep<'a> {
  random: &'a mut Random,
  calls: Vec<Made>,
}

impl Sweep<'_> {
  fn add(&mut self, call: Call) {
    let seed = self.random.number();
    self.calls.push(Made { call, seed });
  }

  fn text(&mut self) -> Vec<u8> {
    let len = self.random.below(4);
    text(len, self.random).into_bytes()
  }

  /// Calls with no position or one.
  fn single(&mut self, positions: &[u32]) {
    for pattern in 0..3 {
      self.add(Call::Trim { pattern });
      self.add(Call::TrimStart { pattern });
      self.add(Call::TrimEnd { pattern });
    }
    self.add(Call::TrimLines);
    let reports = [Call::Len, Call::LenUtf16, Call::LineCount, Call::IsEmpty, Call::HasChanged];
    reports.into_iter().for_each(|report| self.add(report));
    self.add(Call::LastChar);
    for &at in positions {
      let text = self.text();
      insertions(at, &text).into_iter().for_each(|insertion| self.add(insertion));
      self.add(Call::Slice { start: at, end: None, room: None });
    }
  }

  fn pairs(&mut self, positions: &[u32]) {
    for &start in positions {
      for &end in positions {
        self.add(Call::Remove { start, end });
        self.add(Call::Reset { start, end });
        self.add(Call::Slice { start, end: Some(end), room: None });
        self.add(Call::IsRangeWithinEditedChunk { start, end });
        for overwrite in 0..2 {
          let text = self.text();
          self.add(Call::UpdateWith { start, end, overwrite, text });
        }
        let indentor = self.random.one_in(2).then(|| b"> ".to_vec());
        self.add(Call::IndentWith { indentor, exclude: vec![start, end] });
      }
    }
  }

  fn triples(&mut self, positions: &[u32]) {
    for &start in positions {
      for &end in positions {
        for &to in positions {
          self.add(Call::Relocate { start, end, to });
        }
      }
    }
  }

  /// Buffers of every length up to one more than is needed.
  fn buffers(&mut self, desk: &mut Desk) {
    let slice = Call::Slice { start: 0, end: None, room: None };
    let [whole, line] = [Call::ToString { room: None }, Call::LastLine { room: None }];
    for mut call in [slice, whole, line, Call::GetIndentString { room: None }] {
      let written = apply(desk, &call).value;
      for room in 0..=written + 1 {
        *call.room_mut().expect("the call fills a buffer") = Some(room);
        self.add(call.clone());
      }
    }
  }
}
