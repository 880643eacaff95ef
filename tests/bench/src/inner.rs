//! The inner functions behind one check: whole papers as one list of edits, an
//! append and a prepend, and desks whose texts lie at the top of the store.

use differential::{
  Answer, Core, Image, Lent, Unseen,
  cores::{List, inner_answer},
  image::{Style, encode_in},
};
use oracle::{
  Call::{self, *},
  Desk, DeskData, Limits,
  random::Random,
};

use crate::{calls::ROOM, desks, moved::laid_anew, papers, rust::RustCall, timing::least};

/// Appends in one list: as many as find room above their own lists' rows.
const APPENDS: usize = 32;

/// Whole papers: an opening, one list, and the exported output.
pub fn papers(core: &mut impl Core) {
  println!("\na whole paper by inner calls: open, 200 edits in one list, to_string");
  print!("{:<30} {:>10} {:>10} {:>8}", "", "Rust us", "us", "ratio");
  println!(" {:>10} {:>8}", "less check", "ratio");
  for source in [2_048, 16_384] {
    let source = desks::edited(source, 1).source;
    let calls = papers::edits(&fresh(&source), 7);
    let theirs = papers::rust(&source, &calls) / 1_000.0;
    let [ours, checks] = paper(core, &source, &calls).map(|took| took / 1_000.0);
    let name = format!("source of {} bytes", source.len());
    print!("{name:<30} {theirs:>10.1} {ours:>10.1} {:>8.2}", ours / theirs);
    println!(" {:>10.1} {:>8.2}", ours - checks, (ours - checks) / theirs);
  }
}

fn fresh(source: &str) -> Desk {
  Desk::open(Limits::FULL, source.as_bytes()).expect("a source within the limits")
}

/// Nanoseconds of the paper, and of the two checks in it: of the fresh desk, ahead
/// of the list, and of the last one, ahead of the output.
fn paper(core: &mut impl Core, source: &str, calls: &[Call]) -> [f64; 2] {
  let mut image = Image::junk(source.as_bytes().to_vec(), &mut Random::new(1));
  let list = List::new(calls, &Unseen::PLAIN);
  let to_string = ToString { room: Some(ROOM as u32) };
  let mut answers = vec![0; list.len()];
  let mut out = vec![0; ROOM];
  let took = least(
    || (),
    |()| {
      assert_eq!(image.lend().inner_open(), Answer::ACCEPTED);
      make(&mut image.lend(), &list, &mut answers);
      core.call(&mut image.lend(), &to_string, &Unseen::PLAIN, &mut out);
    },
  );
  let last = least(|| (), |()| _ = core.well_formed(&image.lend()));
  image.lend().inner_open();
  let first = least(|| (), |()| make(&mut image.lend(), &List::default(), &mut []));
  [took, first + last]
}

/// Makes the edits of a list, all of which are accepted.
pub fn make(lent: &mut Lent, list: &List, answers: &mut [u32]) {
  let made = Answer { number: 0, value: list.len() as u32 };
  assert_eq!(lent.inner_paper(list, answers), made);
  let accepted = |&word: &u32| inner_answer(word).number == 0;
  assert!(answers.iter().all(accepted), "an edit of the list is refused");
}

/// Nanoseconds of each edit of a list on copies of this memory, less the check.
fn per_edit(image: &Image, calls: &[Call]) -> f64 {
  let list = List::new(calls, &Unseen::PLAIN);
  let mut answers = vec![0; list.len()];
  let took = least(|| image.clone(), |image| make(&mut image.lend(), &list, &mut answers));
  let check = least(|| image.clone(), |image| make(&mut image.lend(), &List::default(), &mut []));
  (took - check) / calls.len() as f64
}

/// The same on the Rust.
fn rust_per_edit(desk: &DeskData, calls: &[Call]) -> f64 {
  let rust = Desk::build(Limits::FULL, desk).magic_string().clone();
  let each: Vec<RustCall> = calls.iter().map(RustCall::new).collect();
  let took = least(|| rust.clone(), |desk| each.iter().for_each(|call| call.make(desk)));
  took / calls.len() as f64
}

/// An append and a prepend, from a list, on desks of more and more chunks.
pub fn ends() {
  println!("\nan edit of a list of {APPENDS}, less the check, source of 2048 bytes");
  println!("{:<30} {:>10} {:>10} {:>8}", "", "Rust ns", "ns", "ratio");
  let text = b"inserted".to_vec();
  let calls = [("append", Append { text: text.clone() }), ("prepend", Prepend { text })];
  for (name, call) in calls {
    for chunks in [10, 100, 500] {
      let desk = desks::edited(2_048, chunks);
      let image = encode_in(Style::tight(), &desk, &mut Random::new(1));
      let calls = vec![call.clone(); APPENDS];
      let (theirs, ours) = (rust_per_edit(&desk, &calls), per_edit(&image, &calls));
      let name = format!("{name}, {chunks} chunks");
      println!("{name:<30} {theirs:>10.0} {ours:>10.0} {:>8.2}", ours / theirs);
    }
  }
}

/// Desks whose texts lie at the front of the store and at its top: an insertion,
/// 200 edits in one list, and how many of those lay the desk out anew. On the desk
/// whose store is nearly full each edit replaces the same text. Then the insertion
/// alone on desks of few chunks.
pub fn top() {
  println!("\nwhere the texts lie, less the check: an append, and 200 edits in one list");
  print!("{:<30} {:>10} {:>10}", "", "Rust ns", "ns");
  println!(" {:>10} {:>10} {:>8} {:>10}", "Rust us", "us", "ratio", "laid anew");
  let insertion = [Append { text: b"inserted".to_vec() }];
  let short = desks::edited(2_048, 100);
  let some = papers::edits(&Desk::build(Limits::FULL, &short), 11);
  let full = desks::nearly_full(100);
  let same = UpdateWith { start: 20, end: 40, overwrite: 1, text: b"inserted".to_vec() };
  let same = vec![same; some.len()];
  for (name, desk, edits, style) in [
    ("100 chunks, at the front", &short, &some, Style::tight()),
    ("100 chunks, at the top", &short, &some, Style::at_top()),
    ("nearly all of the store", &full, &same, Style::tight()),
  ] {
    let image = encode_in(style, desk, &mut Random::new(1));
    let one = [rust_per_edit(desk, &insertion), per_edit(&image, &insertion)];
    let [theirs, ours] = [rust_per_edit(desk, edits), per_edit(&image, edits)]
      .map(|each| each * edits.len() as f64 / 1_000.0);
    print!("{name:<30} {:>10.0} {:>10.0} {theirs:>10.1} {ours:>10.1}", one[0], one[1]);
    println!(" {:>8.2} {:>10}", ours / theirs, laid_anew(&image, edits));
  }
  for chunks in [10, 50] {
    let desk = desks::edited(2_048, chunks);
    for (name, style) in [("front", Style::tight()), ("top", Style::at_top())] {
      let image = encode_in(style, &desk, &mut Random::new(1));
      let [theirs, ours] = [rust_per_edit(&desk, &insertion), per_edit(&image, &insertion)];
      println!("{:<30} {theirs:>10.0} {ours:>10.0}", format!("{chunks} chunks, at the {name}"));
    }
  }
}
