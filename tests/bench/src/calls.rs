//! Each call on one desk, beside the Rust.

use differential::{
  Answer, Core, Image, Unseen,
  image::{self, Style},
};
use oracle::{
  Call::{self, *},
  ChunkData, Desk, DeskData, Limits, insertions,
  random::Random,
  reports,
};
use string_wizard::MagicString;

use crate::{check, desks, rust::RustCall, timing::least};

/// Long enough for every output.
pub const ROOM: usize = 50_000;

pub fn print(core: &mut impl Core, desk: &DeskData) {
  let (source, chunks) = (desk.source.len(), desk.chunks.len());
  println!("\nsource of {source} bytes, {chunks} chunks");
  heads("Rust ns");
  let rust = Desk::build(Limits::FULL, desk).magic_string().clone();
  let image = image::encode_in(Style::tight(), desk, &mut Random::new(1));
  let source: &'static str = desk.source.clone().leak();
  let theirs = least(|| None, |opened| *opened = Some(MagicString::new(source)));
  let ours = time(core, &image, &Open { source: Vec::new() });
  line("open", theirs, ours, ours);
  let checked = checking(core, &image);
  for call in every(desk).into_iter().filter(|call| core.has(call)).collect::<Vec<_>>() {
    let rust_call = RustCall::new(&call);
    let theirs = least(|| rust.clone(), |desk| rust_call.make(desk));
    let ours = time(core, &image, &call);
    let name = call.to_string();
    line(name.split(' ').next().unwrap_or_default(), theirs, ours, ours - checked);
  }
  println!("{:<30} {:>10} {checked:>10.0}", "well_formed", "");
  let (utf8, copied) = check::floor(check::bytes(desk), desks::ASCII);
  println!("{:<30} {:>10} {:>10.0}", "floor: from_utf8 and a copy", "", utf8 + copied);
}

/// The heads of the columns, of which the first is of the Rust.
pub fn heads(rust: &str) {
  print!("{:<30} {rust:>10} {:>10} {:>8}", "", "ns", "ratio");
  println!(" {:>10} {:>8}", "less check", "ratio");
}

pub fn line(name: &str, theirs: f64, ours: f64, less: f64) {
  print!("{name:<30} {theirs:>10.0} {ours:>10.0} {:>8.2}", ours / theirs);
  println!(" {:>10.0} {:>8.2}", less.max(0.0), less.max(0.0) / theirs);
}

/// Nanoseconds of the check alone, which an exported call makes first.
pub fn checking(core: &mut impl Core, image: &Image) -> f64 {
  let mut answer = Answer::ACCEPTED;
  let took = least(|| image.clone(), |image| answer = core.well_formed(&image.lend()));
  assert_eq!(answer, Answer::ACCEPTED, "a desk within the limits");
  took
}

/// Nanoseconds of the call on copies of this memory.
pub fn time(core: &mut impl Core, image: &Image, call: &Call) -> f64 {
  let mut out = vec![0; ROOM];
  let mut number = 0;
  let took = least(
    || image.clone(),
    |image| {
      let Answer { number: got, .. } = core.call(&mut image.lend(), call, &Unseen::PLAIN, &mut out);
      number |= got;
    },
  );
  assert_eq!(number, 0, "{call} is refused");
  took
}

/// A chunk in the middle that is not replaced.
pub fn middle(desk: &DeskData) -> &ChunkData {
  let mut spans: Vec<_> =
    desk.chunks.iter().filter(|chunk| chunk.edited_content.is_none()).collect();
  spans.sort_by_key(|chunk| chunk.start);
  spans[spans.len() / 2]
}

/// Every call but `open`, in and around such a chunk.
fn every(desk: &DeskData) -> Vec<Call> {
  let chunk = middle(desk);
  let (start, at, end) = (chunk.start, chunk.start + 1, chunk.end);
  let text = b"inserted".to_vec();
  let room = Some(ROOM as u32);
  let mut calls = vec![
    Remove { start: at, end },
    UpdateWith { start: at, end, overwrite: 1, text: text.clone() },
    Reset { start: at, end },
  ];
  calls.extend(insertions(at, &text));
  calls.extend([
    Append { text: text.clone() },
    Prepend { text },
    Relocate { start, end, to: 0 },
    Trim { pattern: 0 },
    TrimStart { pattern: 0 },
    TrimEnd { pattern: 1 },
    TrimLines,
    IndentWith { indentor: None, exclude: Vec::new() },
    Slice { start, end: None, room },
    ToString { room },
    LastLine { room },
    GetIndentString { room },
  ]);
  calls.extend(reports(start, end));
  calls
}
