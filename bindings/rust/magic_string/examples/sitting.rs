//! A sitting: calls are made on a script and filed, refused ones too, and some of them
//! are taken back. Then the others are made anew, and their answers may change.

use magic_string::{Call, End::*, FilingError, Refusal, Side::*, Sitting};

const SCRIPT: &str = "Wind north, 12 knots, rain.";

fn main() -> Result<(), Refusal> {
  let mut sitting = Sitting::open(SCRIPT)?;
  println!("{SCRIPT}");

  // Replaces "north, 12 knots". The two calls behind it lie inside the replacement.
  file(&mut sitting, &Call::Update { start: 5, end: 20, text: "calm" });
  file(&mut sitting, &Call::Relocate { start: 10, end: 20, to: 26 });
  file(&mut sitting, &Call::Insert { at: 14, text: " to 15", side: Left, end: Back });
  file(&mut sitting, &Call::Update { start: 5, end: 20, text: "light" });
  file(&mut sitting, &Call::Insert { at: 22, text: "no ", side: Right, end: Back });
  show(&sitting);

  // Without the first call, the move and the insertion behind it are done. The second
  // replacement is across a moved edge then.
  withdraw(&mut sitting, 1);
  withdraw(&mut sitting, 1);
  withdraw(&mut sitting, 4);
  Ok(())
}

/// Makes and files a call: prints it with its answer and its cuts.
fn file(sitting: &mut Sitting, call: &Call) {
  let answer = match sitting.file(call) {
    Ok(_) => "filed, done".to_string(),
    Err(FilingError::Refused(refusal)) => format!("filed, refused: {refusal}"),
    Err(FilingError::NotFiled) => "not filed".to_string(),
  };
  println!("\n{call}\n  {answer}, cuts: {}", sitting.desk().cuts());
}

/// Takes the k-th call back.
fn withdraw(sitting: &mut Sitting, k: usize) {
  println!("\nwithdraw {k}");
  match sitting.withdraw(k) {
    Ok(sitting) => show(sitting),
    Err(refusal) => println!("  refused: {refusal}"),
  }
}

/// What is filed, and the running text.
fn show(sitting: &Sitting) {
  println!("\nThe record, {} calls:", sitting.len());
  for (k, entry) in (1..).zip(sitting.entries()) {
    let number = entry.answer.map_or_else(Refusal::number, |()| 0);
    println!("  {k}  {:<26}  {number}", entry.call);
  }
  println!("The text: {}", sitting.desk());
}
