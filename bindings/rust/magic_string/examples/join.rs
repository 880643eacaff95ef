//! Two candidates, one script: each hands in a list of calls, and the lists are joined, the
//! one first or the other. Then a list that does not join with the first, and in words why.

use magic_string::{Call, End::*, MagicString, Refusal, Side::*, premises};

const SCRIPT: &str = "Wind north, 12 knots, rain.";

fn main() -> Result<(), Refusal> {
  // Both lists were written against this desk, on which the rain is replaced already.
  let mut desk = MagicString::new(SCRIPT)?;
  desk.update(22, 26, "sleet")?;
  println!("{desk}");

  let wind = [
    Call::Update { start: 5, end: 10, text: "west" },
    Call::Insert { at: 14, text: " to 15", side: Left, end: Back },
  ];
  let sky = [
    Call::Relocate { start: 22, end: 26, to: 0 },
    Call::Insert { at: 26, text: ", ", side: Left, end: Back },
    Call::Remove { start: 20, end: 22 },
  ];
  join(&desk, "wind", &wind, "sky", &sky);
  join(&desk, "sky", &sky, "wind", &wind);

  // Its replacement reaches what both calls of the wind reach, its move is a second one
  // beside that of the sky, and its insertion lies inside the sleet.
  let calm = [
    Call::Update { start: 0, end: 14, text: "Calm" },
    Call::Relocate { start: 14, end: 20, to: 0 },
    Call::Insert { at: 24, text: "?", side: Left, end: Back },
  ];
  join(&desk, "wind", &wind, "calm", &calm);
  join(&desk, "sky", &sky, "calm", &calm);
  Ok(())
}

/// Joins two lists on a copy of the desk: prints them, then the text or what is broken.
fn join(desk: &MagicString, name: &str, calls: &[Call], other_name: &str, others: &[Call]) {
  println!();
  for (list, name, calls) in [("First", name, calls), ("Second", other_name, others)] {
    println!("{list} list, {name}:");
    calls.iter().for_each(|call| println!("  {call}"));
  }
  let list = |calls| Call::list(calls).expect("no text is too long for a record");
  let (first, second) = (list(calls), list(others));
  match desk.clone().join(&first, &second) {
    Ok(joined) => println!("Joined, cuts: {}\n  {joined}", joined.cuts()),
    Err(refusal) => {
      println!("Not joined, {}: {refusal}", refusal.number());
      let broken = premises::broken(desk, &first, &second);
      broken.iter().for_each(|broken| println!("  {broken}"));
    }
  }
}
