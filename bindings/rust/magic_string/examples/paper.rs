//! A paper: a script is opened and edits are made on it, with the cuts that each made
//! and the running text after it. Then the desk chunk by chunk, its reports, and the
//! twenty-one refusals in words.

use magic_string::{
  Call, Chunk, End::*, IndentOptions, MagicString, Refusal, Side::*, Sitting, UpdateOptions, layout,
};

const SCRIPT: &str = "\
Here is Ålesund Radio.
  Wind north, 12 knots.
  Air 7 °C, sea calm.
Good night – over.
";

fn main() -> Result<(), Refusal> {
  let mut desk = MagicString::new(SCRIPT)?;
  println!("The script, {} bytes:", SCRIPT.len());
  show(&desk);
  edits(&mut desk)?;
  draw(&desk);
  reports(&desk)?;
  refusals(&mut desk);
  Ok(())
}

/// The place of a text in the script: its first byte, and the first behind it.
fn start(text: &str) -> u32 {
  SCRIPT.find(text).expect("the script has it") as u32
}

fn end(text: &str) -> u32 {
  start(text) + text.len() as u32
}

/// Makes an edit: prints the call with its arguments and cuts, then the running text.
macro_rules! edit {
  ($desk:ident.$edit:ident($($argument:expr),*)) => {
    let arguments: Vec<String> = vec![$(format!("{:?}", $argument)),*];
    let cuts = $desk.$edit($($argument),*)?.cuts();
    println!("\n{}({}), cuts: {cuts}", stringify!($edit), arguments.join(", "));
    show($desk);
  };
}

fn edits(desk: &mut MagicString) -> Result<(), Refusal> {
  let (wind, air) = (start("  Wind"), start("  Air"));
  edit!(desk.update(start("north"), end("north"), "north-west"));
  edit!(desk.insert(end("12"), " to 15", Left, Back));
  edit!(desk.insert(start("Wind"), "Gale warning! ", Right, Back));
  edit!(desk.remove(start(", sea"), end("calm")));
  edit!(desk.insert(end("Ålesund"), " Coast", Left, Front));
  edit!(desk.relocate(air, start("Good"), wind));
  edit!(desk.insert(start("Wind"), "News: ", Right, Front));
  edit!(desk.update_with(start("Wind"), end("Wind"), "Storm", UpdateOptions { overwrite: true }));
  edit!(desk.reset(start(", sea"), end("calm")));
  edit!(desk.remove(start(" –"), end("–")));
  edit!(desk.insert(start("over"), "and ", Right, Back));
  edit!(desk.prepend("CQ CQ CQ\n"));
  edit!(desk.append("73 \t\n\n"));
  edit!(desk.trim_end(Some("\\s")));
  edit!(desk.indent_with(IndentOptions { indentor: Some("> "), exclude: &[(air, start("Good"))] }));
  edit!(desk.freeze(start("Ålesund"), end("Ålesund")));
  Ok(())
}

/// The running text.
fn show(desk: &MagicString) {
  for line in desk.to_string().split('\n') {
    println!("{}", format!("  | {line}").trim_end());
  }
}

/// The desk: the texts before all chunks, each chunk and whether it is frozen, and the
/// texts behind all.
fn draw(desk: &MagicString) {
  println!("\nThe desk, chunk by chunk:");
  list("before all", &desk.intro());
  for chunk in desk.chunks() {
    let Chunk { span, intro, outro, edited_content, frozen } = &chunk;
    list("intro", intro);
    print!("  {:>3} to {:<3}  {:?}", span.start(), span.end(), span.text(desk.source()));
    match edited_content {
      None => {}
      Some("") => print!(" is removed"),
      Some(text) => print!(" is replaced by {text:?}"),
    }
    println!("{}", if *frozen { ", frozen" } else { "" });
    list("outro", outro);
  }
  list("behind all", &desk.outro());
}

/// A list of pieces, if there are any.
fn list(name: &str, pieces: &[&str]) {
  if !pieces.is_empty() {
    println!("  {name:>10}  {pieces:?}");
  }
}

fn reports(desk: &MagicString) -> Result<(), Refusal> {
  let wind = (start("Wind"), end("Wind"));
  println!("\nReports:");
  println!("  lines            {}", desk.line_count());
  println!("  bytes in chunks  {}", desk.len());
  println!("  UTF-16 units     {}", desk.len_utf16());
  println!("  last line        {:?}", desk.last_line());
  println!("  last character   {:?}", desk.last_char());
  println!("  indent string    {:?}", desk.get_indent_string());
  println!("  changed          {}", desk.has_changed());
  println!("  Wind replaced    {}", desk.is_range_within_edited_chunk(wind.0, wind.1));
  println!("  from Wind to 12  {:?}", desk.slice(wind.0, Some(end("12")))?);
  Ok(())
}

fn refusals(desk: &mut MagicString) {
  println!("\nRefused:");
  let (text, chunks) = (desk.to_string(), desk.chunks().count());
  let long = "x".repeat(layout::STORE_BYTES + 1);
  let (past, inside) = (SCRIPT.len() as u32 + 1, start("Å") + 1);
  let (wind, night) = (start("Wind"), start("night"));
  let no_desk = ([0; layout::CHUNKS_LEN], [0; layout::PIECES_LEN], [0; layout::STORE_LEN]);

  refused("open a source with the byte FF", MagicString::from_utf8(*b"73\xFF"));
  refused(
    "take tables of zeros for a desk",
    MagicString::from_tables("73", no_desk.0, no_desk.1, no_desk.2),
  );
  refused("remove from inside the Å", desk.remove(inside, end("Å")));
  refused("remove backwards", desk.remove(end("night"), night));
  refused("replace no byte at all", desk.update(night, night, "day"));
  refused("insert inside a replaced word", desk.insert(wind + 1, "?", Left, Back));
  refused("replace from Radio to Wind", desk.update(start("Radio"), end("Wind"), "?"));
  refused("move night into itself", desk.relocate(night, end("night"), night + 1));
  refused("move from Wind to Air", desk.relocate(wind, end("Air"), 0));
  refused("reset past the source", desk.reset(0, past));
  refused("slice from inside a replaced word", desk.slice(wind + 1, None));
  refused("slice up to inside it", desk.slice(0, Some(wind + 1)));
  refused("append more than the store holds", desk.append(long));
  refused("write the text to 10 bytes", desk.write_to(&mut [0; 10]));
  refused("trim by another pattern", desk.trim(Some("[0-9]")));
  refused("run a sheet of no byte at all", MagicString::run_sheet(b""));
  refused("withdraw a call of an empty record", Sitting::default().withdraw(1));
  let removal = |start, end| Call::list(&[Call::Remove { start, end }]).unwrap_or_default();
  let (word, half) = (removal(night, end("night")), removal(inside, end("Å")));
  refused("join two lists that remove night", desk.join(&word, &word));
  refused("join one that removes half the Å", desk.join(&word, &half));
  refused("remove a frozen word and Radio", desk.remove(start("Ålesund"), end("Radio")));
  let mut sitting = Sitting::default();
  drop(sitting.file(&Call::Remove { start: 0, end: 0 }));
  refused("give a call 10.1 points of 10", sitting.examiner().set_marks(1, 101));

  println!("\nThe text has {} bytes, as before: {}", text.len(), desk.to_string() == text);
  let more = desk.chunks().count() - chunks;
  println!("Cuts that were made before a refusal stay: {more} chunks more");
}

fn refused<T>(asked: &str, answer: Result<T, Refusal>) {
  match answer {
    Ok(_) => println!("      {asked}: done"),
    Err(refusal) => println!("  {:>2}  {asked:<34}  {refusal}", refusal.number()),
  }
}
