//! Marks written, entries read and the total of a full record. The Rust has no such calls, so
//! that there are times and no ratios.

use differential::{Answer, Core, LentRecord, sittings::reading::Reader};

use crate::{
  calls::{ROOM, checking},
  desks,
  filed::{self, accepted},
  papers::EDITS,
  timing::least,
};

pub fn print(core: &mut impl Core) {
  println!("\nmarks and readings of {EDITS} filed calls, which the Rust has not");
  println!("{:<30} {:>10} {:>10}", "", "ns", "less check");
  for source in [2_048, 16_384] {
    let source = desks::edited(source, 1).source;
    if timed(core, &source).is_none() {
      println!("the core has no marks");
      return;
    }
  }
}

/// None where the core lacks one of them. The check is that of the kept desk, which is fresh.
fn timed(core: &mut impl Core, source: &str) -> Option<()> {
  let calls = accepted(source);
  let (mut image, mut record) = filed::memory(core, source);
  let checked = checking(core, &image);
  for call in &calls {
    core.file(&mut image.lend(), &mut record.lend(), call)?;
  }
  let source = source.as_bytes();
  let out = &mut vec![0; ROOM];
  let mut time = |call: &mut dyn FnMut(&mut LentRecord) -> Option<Answer>| {
    call(&mut record.lend())?;
    Some(least(
      || record.clone(),
      |record| assert_eq!(call(&mut record.lend()).map(|answer| answer.number), Some(0)),
    ))
  };
  println!("source of {} bytes", source.len());
  let last = EDITS as u32;
  let line = |name: &str, took: f64| {
    println!("  {name:<28} {took:>10.0} {:>10.0}", (took - checked).max(0.0));
  };
  line("set_marks, the last", time(&mut |record| core.set_marks(source, record, last, 100))?);
  for (name, reader, k) in [
    ("entry, the first", Reader::Member, 1),
    ("entry, the last", Reader::Member, last),
    ("marked_entry, the last", Reader::Examiner, last),
  ] {
    line(name, time(&mut |record| core.show_entry(source, record, reader, k, out))?);
  }
  line("total", time(&mut |record| core.total(source, record))?);
  Some(())
}
