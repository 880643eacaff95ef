//! Whole papers as sheets: one call that reads the records and makes their edits,
//! beside the Rust, which gets the edits already read; and the judging of the sheet
//! alone.

use differential::{Answer, Core, Image, sheets::fields::Fields};
use oracle::{Desk, Limits, number::BAD_SHEET, random::Random};

use crate::{
  desks,
  papers::{self, EDITS},
  rust::{anew, see},
  timing::least,
};

pub fn print(core: &mut impl Core) {
  println!("\na sheet of {EDITS} records: run_sheet, beside the Rust's opening and the same edits");
  print!("{:<30} {:>10} {:>10} {:>8}", "", "Rust us", "us", "ratio");
  println!(" {:>10} {:>8}", "judging us", "share");
  for source in [2_048, 16_384] {
    let source = desks::edited(source, 1).source;
    let fresh = Desk::open(Limits::FULL, source.as_bytes()).expect("a source within the limits");
    let calls = papers::edits(&fresh, 7);
    let sheet = Fields::of(source.as_bytes(), &calls);
    let made = Answer { number: 0, value: calls.len() as u32 };
    let Some(ours) = time(core, &sheet, made) else {
      println!("the core runs no sheets");
      return;
    };
    let judging = time(core, &last_is_bad(sheet), Answer { number: BAD_SHEET, value: 0 });
    let [theirs, ours, judging] =
      [anew(&source, &calls, see), ours, judging.unwrap_or_default()].map(|took| took / 1_000.0);
    let name = format!("source of {} bytes", source.len());
    print!("{name:<30} {theirs:>10.1} {ours:>10.1} {:>8.2}", ours / theirs);
    println!(" {judging:>10.1} {:>7.1}%", 100.0 * judging / ours);
  }
}

/// Nanoseconds of a run that gives this answer; none where the core runs no sheets.
fn time(core: &mut impl Core, sheet: &Fields, expected: Answer) -> Option<f64> {
  let mut memory = Image::junk(sheet.bytes(), &mut Random::new(1));
  let mut answers = vec![0; sheet.records.len()];
  core.run_sheet(&mut memory.lend(), &mut answers)?;
  let took =
    least(|| (), |()| assert_eq!(core.run_sheet(&mut memory.lend(), &mut answers), Some(expected)));
  assert!(answers.iter().all(|&answer| answer == 0), "a record of the sheet is refused");
  Some(took)
}

/// The sheet with a last record of no kind: it is refused once all of it is judged.
fn last_is_bad(mut sheet: Fields) -> Fields {
  sheet.records.last_mut().expect("a record").body[0] = 0;
  sheet
}
