//! Random calls on the desk as it now is.

use super::Generator;
use crate::{Call, SETTINGS, random::Random};

/// Chooses calls. What it knows of its desk it puts into positions and texts.
pub trait Caller {
  fn random(&mut self) -> &mut Random;

  fn position(&mut self) -> u32;

  /// A text to insert.
  fn text(&mut self) -> Vec<u8>;

  /// How many bytes a call that fills a buffer writes now.
  fn written(&mut self, call: &Call) -> u32;

  /// Two positions, most often with the start first.
  fn range(&mut self) -> (u32, u32) {
    let (one, other) = (self.position(), self.position());
    if self.random().one_in(10) { (one, other) } else { (one.min(other), one.max(other)) }
  }

  /// How many positions an indent leaves out.
  fn excluded(&mut self) -> usize {
    [0, 0, 0, 2, 2, 4, 6, 1, 3][self.random().below(9)]
  }

  fn edit(&mut self) -> Call {
    let (start, end) = self.range();
    let at = self.position();
    match self.random().below(14) {
      0 | 1 => Call::Remove { start, end },
      2 | 3 => Call::UpdateWith { start, end, overwrite: self.option(), text: self.text() },
      4 => Call::Reset { start, end },
      choice @ 5..=8 => Call::Insert { at, text: self.text(), setting: SETTINGS[choice - 5] },
      9 => Call::Append { text: self.text() },
      10 => Call::Prepend { text: self.text() },
      11 => Call::Relocate { start, end, to: at },
      _ => self.relocate_outside(),
    }
  }

  /// A move to a place before or after its range.
  fn relocate_outside(&mut self) -> Call {
    let mut places = [self.position(), self.position(), self.position()];
    places.sort();
    let [low, middle, high] = places;
    if self.random().one_in(2) {
      Call::Relocate { start: low, end: middle, to: high }
    } else {
      Call::Relocate { start: middle, end: high, to: low }
    }
  }

  fn trim_or_indent(&mut self) -> Call {
    let pattern = match self.random().below(12) {
      0 => self.random().between(2, 3) as u32,
      1 => u32::MAX,
      other => other as u32 % 2,
    };
    match self.random().below(6) {
      0 => Call::Trim { pattern },
      1 => Call::TrimStart { pattern },
      2 => Call::TrimEnd { pattern },
      3 => Call::TrimLines,
      _ => {
        let indentor = (!self.random().one_in(3)).then(|| self.text());
        let count = self.excluded();
        Call::IndentWith { indentor, exclude: (0..count).map(|_| self.position()).collect() }
      }
    }
  }

  /// A call that fills a buffer: long enough, exact, or too short by one or more.
  fn filling(&mut self) -> Call {
    let mut call = match self.random().below(8) {
      0..=3 => {
        let (start, end) = self.range();
        Call::Slice { start, end: (!self.random().one_in(4)).then_some(end), room: None }
      }
      4 | 5 => Call::ToString { room: None },
      6 => Call::LastLine { room: None },
      _ => Call::GetIndentString { room: None },
    };
    let written = self.written(&call);
    let room = match self.random().below(8) {
      0 => Some(written),
      1 => Some(written.saturating_sub(1)),
      2 => Some(written + 1),
      3 => Some(self.random().between(0, 20) as u32),
      _ => None,
    };
    *call.room_mut().unwrap() = room;
    call
  }

  fn report(&mut self) -> Call {
    match self.random().below(9) {
      0 => Call::Len,
      1 => Call::LenUtf16,
      2 => Call::LineCount,
      3 => Call::IsEmpty,
      4 => Call::HasChanged,
      5 => Call::LastChar,
      6 => Call::Dump,
      _ => {
        let (start, end) = self.range();
        Call::IsRangeWithinEditedChunk { start, end }
      }
    }
  }

  fn option(&mut self) -> u32 {
    [0, 0, 1, 1, 2, u32::MAX][self.random().below(6)]
  }
}

impl Caller for Generator {
  fn random(&mut self) -> &mut Random {
    &mut self.random
  }

  /// An edge of a chunk, a place between characters, any byte, an end of the
  /// source, or past it.
  fn position(&mut self) -> u32 {
    let len = self.source_len();
    match self.random.below(24) {
      0 => 0,
      1 => len as u32,
      2 => (len + self.random.between(1, 3)) as u32,
      3 if self.random.one_in(4) => u32::MAX,
      4 | 5 => self.random.between(0, len) as u32,
      6..=12 => self.edge(),
      _ => {
        let at = self.random.between(0, len);
        let source = self.script.desk().map_or("", |desk| desk.magic_string().source());
        (at..=len).find(|&at| source.is_char_boundary(at)).unwrap_or(len) as u32
      }
    }
  }

  fn text(&mut self) -> Vec<u8> {
    self.inserted()
  }

  fn written(&mut self, call: &Call) -> u32 {
    self.script.call(call).map_or(0, |answer| answer.value)
  }
}

impl Generator {
  pub(super) fn any_call(&mut self) -> Call {
    if self.random.one_in(400) {
      return Call::Open { source: self.source(24) };
    }
    match self.random.below(20) {
      0..=9 => self.edit(),
      10 => self.trim_or_indent(),
      11..=14 => self.filling(),
      _ => self.report(),
    }
  }

  fn edge(&mut self) -> u32 {
    let Some(desk) = self.script.desk() else {
      return 0;
    };
    let chunks = desk.data().chunks;
    let chunk = &chunks[self.random.below(chunks.len())];
    if self.random.one_in(2) { chunk.start } else { chunk.end }
  }
}
