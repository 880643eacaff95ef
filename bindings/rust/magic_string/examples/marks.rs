//! The examiner's column: a member files calls, an examiner marks them, and the member takes
//! one back. The member's view and the examiner's are two types, and the first has no way to
//! the marks.

use magic_string::{Call, End::*, Examiner, MarkedEntry, Member, Refusal, Side::*, Sitting};

const SCRIPT: &str = "Wind north, 12 knots, rain.";

fn main() -> Result<(), Refusal> {
  // The box has the sitting, and hands out one view at a time.
  let mut sitting = Sitting::open(SCRIPT)?;
  file(&mut sitting.member());

  // 9, 2.5 and 10 points.
  sitting.examiner().set_marks(1, 90)?.set_marks(2, 25)?.set_marks(3, 100)?;
  mark(&mut sitting.examiner(), 3, 101);
  mark(&mut sitting.examiner(), 4, 50);
  show(&sitting.examiner());
  read(&mut sitting.member())?;

  // The call takes its 9 points with it. The next one, which lay inside its replacement, is
  // done then, and keeps its 2.5.
  println!("\nThe member withdraws call 1.");
  sitting.member().withdraw(1)?;
  read(&mut sitting.member())?;
  show(&sitting.examiner());
  Ok(())
}

/// What the member does.
fn file(member: &mut Member) {
  println!("{}\nThe member files:", member.desk());
  let calls = [
    Call::Update { start: 5, end: 20, text: "calm" },
    Call::Insert { at: 14, text: " to 15", side: Left, end: Back },
    Call::Insert { at: 22, text: "no ", side: Right, end: Back },
  ];
  for call in calls {
    let answer = member.file(&call).map_or_else(|error| error.refusal().number(), |_| 0);
    println!("  {call:<26}  {answer}");
  }
}

/// The calls as the member reads them.
fn read(member: &mut Member) -> Result<(), Refusal> {
  println!("\nThe member reads:");
  for k in 1..=member.len() {
    let entry = member.entry(k)?;
    println!("  {k}  {:<26}  {}", entry.call, number(entry.answer));
  }
  println!("  {}", member.desk());
  Ok(())
}

/// Marks that are refused.
fn mark(examiner: &mut Examiner, k: usize, marks: u32) {
  if let Err(refusal) = examiner.set_marks(k, marks) {
    println!("\n{} points for call {k}: {}, {refusal}", points(marks), refusal.number());
  }
}

/// The calls as the examiner reads them, and the total.
fn show(examiner: &Examiner) {
  println!("\nThe examiner reads:");
  for (k, MarkedEntry { entry, marks }) in (1..).zip(examiner.marked_entries()) {
    println!("  {k}  {:<26}  {}  {:>4}", entry.call, number(entry.answer), points(marks));
  }
  println!("  total {:>32}", points(examiner.total()));
}

fn number(answer: Result<(), Refusal>) -> u32 {
  answer.map_or_else(Refusal::number, |()| 0)
}

/// Tenths of a point as points.
fn points(marks: u32) -> String {
  format!("{}.{}", marks / 10, marks % 10)
}
