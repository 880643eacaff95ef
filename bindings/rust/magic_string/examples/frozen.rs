//! Frozen parts: an examiner freezes a line of a script before a sitting. Calls that would
//! take its bytes away are refused, and filed so; the others go on around it.

use magic_string::{Call, End::*, FilingError, MagicString, Refusal, Side::*, Sitting};

const SCRIPT: &str = "Wind north.\nTimeout 30 s.\nGood night.\n";

fn main() -> Result<(), Refusal> {
  let mut desk = MagicString::new(SCRIPT)?;
  desk.freeze(12, 26)?;
  let mut sitting = Sitting::from(desk);
  println!("The line with the timeout is frozen:");
  draw(&sitting);

  file(&mut sitting, &Call::Update { start: 5, end: 10, text: "west" });
  // Its bytes cannot be replaced, nor removed among others.
  file(&mut sitting, &Call::Update { start: 20, end: 22, text: "99" });
  file(&mut sitting, &Call::Remove { start: 0, end: 38 });
  // Something can be added between them, and they can be moved.
  file(&mut sitting, &Call::Insert { at: 24, text: " or less", side: Left, end: Back });
  file(&mut sitting, &Call::Relocate { start: 12, end: 26, to: 38 });
  println!();
  draw(&sitting);
  // Nothing more is frozen while calls are filed.
  freeze(&mut sitting, 0, 12);

  while !sitting.is_empty() {
    sitting.withdraw(1)?;
  }
  println!("\nAll calls are withdrawn:");
  draw(&sitting);
  freeze(&mut sitting, 0, 12);
  draw(&sitting);
  Ok(())
}

/// Makes and files a call: prints it with its answer and its cuts.
fn file(sitting: &mut Sitting, call: &Call) {
  let answer = match sitting.file(call) {
    Ok(_) => "done".to_string(),
    Err(FilingError::Refused(refusal)) => format!("{}, {refusal}", refusal.number()),
    Err(FilingError::NotFiled) => "not filed".to_string(),
  };
  println!("\n{call}\n  {answer}; cuts: {}", sitting.desk().cuts());
}

fn freeze(sitting: &mut Sitting, start: u32, end: u32) {
  println!("\nfreeze {start} {end}");
  match sitting.freeze(start, end) {
    Ok(sitting) => println!("  done; cuts: {}", sitting.desk().cuts()),
    Err(refusal) => println!("  {}, {refusal}", refusal.number()),
  }
}

/// The desk chunk by chunk, each with what it shows, and # where it is frozen.
fn draw(sitting: &Sitting) {
  let desk = sitting.desk();
  for chunk in desk.chunks() {
    let shown: String = chunk.fragments(desk.source()).collect();
    let mark = if chunk.frozen { '#' } else { ' ' };
    println!("  {mark} {:>2} to {:<2}  {shown:?}", chunk.start(), chunk.end());
  }
}
