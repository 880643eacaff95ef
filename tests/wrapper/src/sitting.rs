//! Sittings: document 02's L5, with what L8 and L9 add to it, read plainly, with the oracle
//! for the calls; and random calls to be filed.

use magic_string::{End, Entry, FilingError, MarkedEntry, Refusal, Side, Sitting, layout::*};
use oracle::{
  Answer, Call, Desk, Limits, SETTINGS, Setting, apply,
  number::{FROZEN, LIMIT, NO_SUCH_CALL},
  random::Random,
};

/// A desk, the filed calls with their numbers, their marks, and the desk before the first of
/// them.
pub struct Plain {
  kept: Desk,
  pub desk: Desk,
  pub entries: Vec<(Call, u32)>,
  pub marks: Vec<u32>,
}

impl Plain {
  pub fn open(source: &str) -> Self {
    let desk = Desk::open(Limits::FULL, source.as_bytes()).expect("a source within the limits");
    Self { kept: desk.clone(), desk, entries: Vec::new(), marks: Vec::new() }
  }

  /// The desk from which a withdrawal starts.
  pub fn start(&self) -> &Desk {
    if self.entries.is_empty() { &self.desk } else { &self.kept }
  }

  /// Freezes the bytes from start up to end, with no call filed.
  pub fn freeze(&mut self, start: u32, end: u32) -> Answer {
    match self.entries.is_empty() {
      true => apply(&mut self.desk, &Call::Freeze { start, end }),
      false => Answer::number(FROZEN),
    }
  }

  /// Makes a call and files it; none where it is not filed.
  pub fn file(&mut self, call: &Call) -> Option<Answer> {
    let filed = self.entries.iter().map(|(call, _)| call);
    let texts: usize = filed.chain([call]).filter_map(Call::text).map(<[u8]>::len).sum();
    if self.entries.len() == RECORD_CALLS || texts > RECORD_TEXT {
      return None;
    }
    self.kept = self.start().clone();
    let answer = apply(&mut self.desk, call);
    self.entries.push((call.clone(), answer.number));
    self.marks.push(0);
    Some(answer)
  }

  /// Takes the k-th call out, and makes the others on the kept desk.
  pub fn withdraw(&mut self, k: usize) -> u32 {
    if k == 0 || k > self.entries.len() {
      return NO_SUCH_CALL;
    }
    self.entries.remove(k - 1);
    self.marks.remove(k - 1);
    self.desk = self.kept.clone();
    for (call, number) in &mut self.entries {
      *number = apply(&mut self.desk, call).number;
    }
    0
  }

  /// Writes the marks of the k-th call.
  pub fn set_marks(&mut self, k: usize, marks: u32) -> u32 {
    if k == 0 || k > self.entries.len() {
      return NO_SUCH_CALL;
    }
    if marks > HIGHEST_MARKS {
      return Refusal::MarksTooHigh.number();
    }
    self.marks[k - 1] = marks;
    0
  }
}

/// The number and the cuts of a call that the wrapper files; none where it is not filed.
pub fn file(sitting: &mut Sitting, call: &Call) -> Option<Answer> {
  let number = match sitting.file(&to_wrapper(call)) {
    Ok(_) => 0,
    Err(FilingError::Refused(refusal)) => refusal.number(),
    Err(not_filed) => {
      assert_eq!((not_filed.refusal().number(), sitting.desk().cuts()), (LIMIT, 0));
      return None;
    }
  };
  Some(Answer::edit(number, sitting.desk().cuts()))
}

/// The number and the cuts of a freezing by the wrapper.
pub fn freeze(sitting: &mut Sitting, start: u32, end: u32) -> Answer {
  let number = sitting.freeze(start, end).map_or_else(Refusal::number, |_| 0);
  Answer::edit(number, if number == FROZEN { 0 } else { sitting.desk().cuts() })
}

/// The entries as the wrapper shows them.
pub fn entries(plain: &Plain) -> Vec<Entry<'_>> {
  let answer = |number| Refusal::from_number(number).map_or(Ok(()), Err);
  let entries = plain.entries.iter();
  entries.map(|(call, number)| Entry { call: to_wrapper(call), answer: answer(*number) }).collect()
}

/// The same with their marks.
pub fn marked_entries(plain: &Plain) -> Vec<MarkedEntry<'_>> {
  let marked = entries(plain).into_iter().zip(&plain.marks);
  marked.map(|(entry, &marks)| MarkedEntry { entry, marks }).collect()
}

/// A call of a sheet's kind as the wrapper has it.
pub fn to_wrapper(call: &Call) -> magic_string::Call<'_> {
  use magic_string::Call as Filed;
  let text = call.text().map_or("", |text| str::from_utf8(text).expect("UTF-8"));
  match *call {
    Call::Remove { start, end } => Filed::Remove { start, end },
    Call::UpdateWith { start, end, .. } => Filed::Update { start, end, text },
    Call::Reset { start, end } => Filed::Reset { start, end },
    Call::Insert { at, setting: Setting { left, front }, .. } => {
      let side = if left { Side::Left } else { Side::Right };
      Filed::Insert { at, text, side, end: if front { End::Front } else { End::Back } }
    }
    Call::Relocate { start, end, to } => Filed::Relocate { start, end, to },
    _ => unreachable!("{call} is no call of a sheet"),
  }
}

/// Random calls of a sheet's kinds.
pub struct Calls<'a> {
  pub random: &'a mut Random,
  pub source: &'a str,
  /// Most bytes of a text.
  pub text: usize,
  /// How many of four calls are moves.
  pub moves: usize,
}

impl Calls<'_> {
  pub fn call(&mut self) -> Call {
    let mut places = [self.position(), self.position(), self.position()];
    if !self.random.one_in(12) {
      places.sort();
    }
    let [start, end, at] = places;
    if self.random.below(4) < self.moves {
      return match self.random.below(2) {
        0 => Call::Relocate { start, end, to: at },
        _ => Call::Relocate { start: end, end: at, to: start },
      };
    }
    match self.random.below(9) {
      0 | 1 => Call::Remove { start, end },
      2 | 3 => Call::UpdateWith { start, end, overwrite: 1, text: self.text() },
      4 => Call::Reset { start, end },
      kind @ 5..=8 => Call::Insert { at, text: self.text(), setting: SETTINGS[kind - 5] },
      _ => unreachable!("below 9"),
    }
  }

  /// A range to be frozen: a few bytes, most often.
  pub fn range(&mut self) -> (u32, u32) {
    let (start, end) = (self.position(), self.position());
    if self.random.one_in(4) { (start, end) } else { (start, start + self.random.below(4) as u32) }
  }

  /// A place between characters, most often; any byte, or past the source.
  fn position(&mut self) -> u32 {
    let length = self.source.len();
    let at = self.random.between(0, length);
    match self.random.below(40) {
      0 => at as u32,
      1 => (length + self.random.between(1, 3)) as u32,
      _ => self.source.floor_char_boundary(at) as u32,
    }
  }

  fn text(&mut self) -> Vec<u8> {
    let text = self.random.pick(&["", "x", "é", "XYZ", "\n", "😀"]);
    text.repeat(self.random.between(0, self.text / 4)).into_bytes()
  }
}
