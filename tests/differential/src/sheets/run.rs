//! One sheet on both sides, and everything that must agree after it.

use oracle::random::Random;

use super::{
  Handed, Tally,
  handed::FULL,
  reading::{self, Ran},
};
use crate::{Answer, Core, Image, out::Out};

/// Runs the sheet as it is handed in. What differs, if anything does.
pub fn run(core: &mut impl Core, handed: &Handed, tally: &mut Tally) -> Result<(), String> {
  let random = &mut Random::new(handed.seed);
  match run_in(core, &mut handed.memory(random), handed.room, random)? {
    Some(ran) => tally.add(handed, &ran),
    None => tally.passed_over += 1,
  }
  Ok(())
}

/// Runs the sheet that stands in the source's place of this memory, with room for so
/// many answers; its source stands there behind it, if it was opened. What the run must give
/// and gave, or what differs; none where the core runs no sheets.
pub fn run_in(
  core: &mut impl Core,
  memory: &mut Image,
  room: usize,
  random: &mut Random,
) -> Result<Option<Result<Ran, u32>>, String> {
  let before = memory.clone();
  let lengths = [before.chunks.len(), before.pieces.len(), before.store.len()];
  let expected = reading::run(&before.source, lengths == FULL, room);
  let mut answers = Out::new(room, random);
  let Some(answer) = core.run_sheet(&mut memory.lend(), answers.lend()) else {
    return Ok(None);
  };

  if memory.source != before.source {
    return Err("the sheet changed".to_string());
  }
  match &expected {
    Err(number) => {
      check_answer(answer, Answer { number: *number, value: 0 })?;
      answers.check(&[])?;
      if !memory.same_tables(&before) {
        return Err("a run that changes nothing changed the lent tables".to_string());
      }
    }
    Ok(ran) => {
      check_answer(answer, Answer { number: 0, value: ran.answers.len() as u32 })?;
      check_records(answers.lend(), &ran.answers)?;
      answers.check(&ran.answers)?;
      memory.source.clone_from(&ran.sheet.source);
      memory.check_desk(&ran.desk.data())?;
    }
  }
  Ok(Some(expected))
}

fn check_answer(answer: Answer, expected: Answer) -> Result<(), String> {
  if answer == expected { Ok(()) } else { Err(format!("{answer:?}, not {expected:?}")) }
}

fn check_records(answers: &[u8], expected: &[u8]) -> Result<(), String> {
  match answers.iter().zip(expected).position(|(answer, expected)| answer != expected) {
    None => Ok(()),
    Some(place) => {
      let (answer, expected) = (answers[place], expected[place]);
      Err(format!("record {} answers {answer}, not {expected}", place + 1))
    }
  }
}
