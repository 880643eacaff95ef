//! One call made on both sides, and everything that must agree after it.

use oracle::{Answer as Expected, Call, Desk, Limits, apply, number, random::Random};

use crate::{
  Answer, Core, Image, Made, Met, Sizes, Start, Unseen, image, keeps,
  layout::{MOST_BYTES, MOST_SOURCE},
  out::Out,
  well_formed,
};

/// The oracle's desk and the core's memory, which mean the same.
#[derive(Debug, Clone)]
pub struct Both {
  limits: Limits,
  /// None before the first accepted opening.
  pub(crate) desk: Option<Desk>,
  pub(crate) image: Image,
  before: Image,
}

impl Both {
  pub fn start(sizes: Sizes, start: &Start) -> Self {
    let image = start.memory(sizes);
    match start {
      Start::Junk { .. } => Self::of_no_desk(sizes.limits(), image),
      Start::Desk { .. } => Self::of(image),
    }
  }

  /// From memory that is well formed.
  pub fn of(image: Image) -> Self {
    let data = image::decode(&image.source, &image.chunks, &image.pieces, &image.store);
    let limits = image.sizes().expect("the memory of a desk").limits();
    let desk = Some(Desk::build(limits, &data));
    Self { limits, desk, before: image.clone(), image }
  }

  /// From memory of a desk of the full sizes, or of none.
  pub fn of_any(image: Image) -> Self {
    match well_formed(&image.source, &image.chunks, &image.pieces, &image.store) {
      true => Self::of(image),
      false => Self::of_no_desk(Limits::FULL, image),
    }
  }

  fn of_no_desk(limits: Limits, image: Image) -> Self {
    Self { limits, desk: None, before: image.clone(), image }
  }

  /// The core takes the memory for what it is.
  pub fn check_start(&mut self, core: &mut impl Core) -> Result<(), String> {
    let expected = if self.desk.is_some() { Answer::ACCEPTED } else { Answer::NO_DESK };
    self.begin();
    let answer = core.well_formed(&self.image.lend());
    if answer != expected {
      return Err(format!("well_formed gives {answer:?}, not {expected:?}"));
    }
    self.unchanged()
  }

  /// Makes the call on both sides. What is counted of it, or what differs.
  pub fn step(&mut self, core: &mut impl Core, made: &Made) -> Result<Met, String> {
    let mut random = Random::new(made.seed);
    let unseen = Unseen::any(&mut random);
    let (expected, met) = self.expected(&made.call);
    let mut out = Out::new(room(&made.call, &expected, &mut random), &mut random);

    self.begin();
    if let Call::Open { source } = &made.call {
      self.image.source.clone_from(source);
    }
    let answer = core.call(&mut self.image.lend(), &made.call, &unseen, out.lend());
    self.check_source(&made.call, &expected)?;
    check_answer(answer, &expected)?;
    out.check(&expected.bytes)?;
    if keeps::every_byte(&made.call, expected.number) {
      self.unchanged()?;
    } else {
      self.same_desk()?;
    }
    Ok(met)
  }

  /// Makes edits one behind the other on both sides, none of them an opening.
  /// What is counted of them, or what differs with the place of the call where it is
  /// seen.
  pub fn list(&mut self, core: &mut impl Core, list: &[Made]) -> Result<Vec<Met>, (usize, String)> {
    let calls: Vec<&Call> = list.iter().map(|made| &made.call).collect();
    let (expected, met): (Vec<_>, Vec<_>) = calls.iter().map(|call| self.expected(call)).unzip();
    let unseen = Unseen::any(&mut Random::new(list[0].seed));
    self.begin();
    let answers = core.list(&mut self.image.lend(), &calls, &unseen);

    let last = list.len() - 1;
    if answers.len() != list.len() {
      return Err((last, format!("{} answers, not {}", answers.len(), list.len())));
    }
    for (place, (&answer, expected)) in answers.iter().zip(&expected).enumerate() {
      check_answer(answer, expected).map_err(|what| (place, what))?;
    }
    let mut each = calls.iter().zip(&expected);
    let kept = each.all(|(call, expected)| keeps::every_byte(call, expected.number));
    self.end(kept).map_err(|what| (last, what))?;
    Ok(met)
  }

  /// Keeps the memory as it now is, for what is compared with it.
  pub(crate) fn begin(&mut self) {
    self.before.copy_from(&self.image);
  }

  /// The memory holds the oracle's desk, or each byte is as it was at `begin`. The source
  /// is as it was.
  pub(crate) fn end(&self, kept: bool) -> Result<(), String> {
    if self.image.source != self.before.source {
      return Err("the source changed".to_string());
    }
    if kept { self.unchanged() } else { self.same_desk() }
  }

  /// The oracle's answer, and what is counted of it.
  fn expected(&mut self, call: &Call) -> (Expected, Met) {
    let expected = self.answered(call);
    let cuts = match (&self.desk, expected.number) {
      (Some(desk), number::LIMIT) => taken_back(desk, call),
      _ if call.is_edit() => expected.value,
      _ => 0,
    };
    let met = Met { number: expected.number, cuts };
    (expected, met)
  }

  /// The oracle's answer: 2 where there is no desk yet.
  fn answered(&mut self, call: &Call) -> Expected {
    match (&mut self.desk, call) {
      (Some(desk), _) => apply(desk, call),
      (None, Call::Open { source }) => match Desk::open(self.limits, source) {
        Ok(desk) => {
          self.desk = Some(desk);
          Expected::number(number::ACCEPTED)
        }
        Err(number) => Expected::number(number),
      },
      (None, _) => Expected::number(Answer::NO_DESK.number),
    }
  }

  /// No call writes the source. A refused opening leaves the old one in use.
  fn check_source(&mut self, call: &Call, expected: &Expected) -> Result<(), String> {
    let given = if let Call::Open { source } = call { source } else { &self.before.source };
    if self.image.source != *given {
      return Err("the source changed".to_string());
    }
    if expected.number != number::ACCEPTED {
      self.image.source.clone_from(&self.before.source);
    }
    Ok(())
  }

  fn unchanged(&self) -> Result<(), String> {
    if self.image.same_tables(&self.before) {
      return Ok(());
    }
    Err("a call that changes nothing changed the lent tables".to_string())
  }

  fn same_desk(&self) -> Result<(), String> {
    let expected = self.desk.as_ref().expect("an edit has a desk").data();
    self.image.check_desk(&expected)
  }
}

/// The cuts that an edit would make on a desk without limits. An opening has none.
fn taken_back(desk: &Desk, call: &Call) -> u32 {
  match call {
    Call::Open { .. } => 0,
    _ => apply(&mut Desk::build(Limits::NONE, &desk.data()), call).value,
  }
}

pub(crate) fn check_answer(answer: Answer, expected: &Expected) -> Result<(), String> {
  if answer.number != expected.number {
    return Err(format!("number {}, not {}", answer.number, expected.number));
  }
  if answer.value != expected.value {
    return Err(format!("value {}, not {}", answer.value, expected.value));
  }
  Ok(())
}

/// The length of the lent buffer: the call's, or any that is long enough.
pub fn room(call: &Call, expected: &Expected, random: &mut Random) -> usize {
  let longer = [0, 0, 1, 7, random.below(100), MOST_SOURCE + MOST_BYTES][random.below(6)];
  match call.clone().room_mut() {
    None => 0,
    Some(Some(room)) => *room as usize,
    Some(None) => expected.value as usize + longer,
  }
}
