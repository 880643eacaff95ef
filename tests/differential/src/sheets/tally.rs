//! What was compared: sheets by what they try, numbers, and the answers of records
//! by kind.

use std::{collections::BTreeMap, fmt};

use super::{Handed, reading::Ran};

#[derive(Debug, Clone, Default)]
pub struct Tally {
  pub sheets: u64,
  /// Sheets that the program got too.
  pub printed: u64,
  /// Sheets that the core does not run.
  pub passed_over: u64,
  tried: BTreeMap<&'static str, u64>,
  numbers: [u64; 17],
  /// By kind and answer.
  answers: [[u64; 16]; 9],
}

/// The numbers of a run.
const NUMBERS: [usize; 6] = [0, 1, 2, 13, 14, 16];

/// The answers of a record of each kind: the numbers of its call in
/// include/magic_string.h but 2, which no run meets.
const ANSWERS: [(usize, &[usize]); 8] = [
  (1, &[0, 3, 4, 6, 13]),
  (2, &[0, 1, 3, 4, 5, 6, 7, 10, 13]),
  (3, &[0, 3, 4, 6, 10, 13]),
  (4, &[0, 1, 3, 6, 13]),
  (5, &[0, 1, 3, 6, 13]),
  (6, &[0, 1, 3, 6, 13]),
  (7, &[0, 1, 3, 6, 13]),
  (8, &[0, 3, 4, 6, 8, 9, 10, 13]),
];

impl Tally {
  /// Adds a sheet whose run is known.
  pub fn add(&mut self, handed: &Handed, ran: &Result<Ran, u32>) {
    self.sheets += 1;
    *self.tried.entry(handed.tries).or_default() += 1;
    match ran {
      Err(number) => self.numbers[*number as usize] += 1,
      Ok(Ran { sheet, answers, .. }) => {
        self.numbers[0] += 1;
        for ((kind, _), answer) in sheet.records.iter().zip(answers) {
          self.answers[*kind as usize][*answer as usize] += 1;
        }
      }
    }
  }

  /// Each number, and each answer of each kind, with how often it was met.
  fn met(&self) -> impl Iterator<Item = (String, u64)> {
    let numbers = NUMBERS.iter().map(|&number| (format!("number {number}"), self.numbers[number]));
    let answers = ANSWERS.iter().flat_map(|&(kind, answers)| {
      let met = self.answers[kind];
      answers.iter().map(move |&answer| (format!("kind {kind} answers {answer}"), met[answer]))
    });
    numbers.chain(answers)
  }

  /// What was never met.
  pub fn missing(&self) -> Vec<String> {
    self.met().filter(|&(_, met)| met == 0).map(|(name, _)| name).collect()
  }
}

impl fmt::Display for Tally {
  fn fmt(&self, out: &mut fmt::Formatter) -> fmt::Result {
    writeln!(out, "sheets: {}", self.sheets)?;
    self.tried.iter().try_for_each(|(tries, met)| writeln!(out, "  {tries}: {met}"))?;
    if self.passed_over > 0 {
      writeln!(out, "sheets passed over, as the core runs none: {}", self.passed_over)?;
    }
    writeln!(out, "sheets that the program got: {}", self.printed)?;
    let records: u64 = self.answers.iter().flatten().sum();
    writeln!(out, "records: {records}")?;
    self.met().try_for_each(|(name, met)| writeln!(out, "  {name}: {met}"))
  }
}
