//! Whole papers in sheets: what a run leaves, and which are refused. A run is compared
//! with its calls made one by one, and its 16 with what sheet_script takes for a sheet.

mod one_by_one;
#[path = "../../sheet_script/tests/plain/mod.rs"]
mod plain;
#[path = "../../sheet_script/tests/random/mod.rs"]
mod random;

use std::collections::BTreeSet;

use magic_string::{End::*, MagicString, Refusal, SheetRun, Side::*, layout::*};
use one_by_one::call;
use plain::{Record, Sheet};
use random::Random;
use sheet_script::{to_script, to_sheet};

/// Runs the sheet of a script.
fn run(script: &str) -> Result<SheetRun, Refusal> {
  MagicString::run_sheet(&to_sheet(script.as_bytes()).unwrap())
}

#[test]
fn document_02_example() {
  let run = run("source \"abc\"\nrelocate 0 2 3").unwrap();
  assert_eq!(run.answers, [Ok(())]);
  assert_eq!((run.desk.source(), run.desk.to_string()), ("abc", "cab".to_string()));
}

#[test]
fn no_record_at_all() {
  let run = run("source \"é\"").unwrap();
  assert_eq!(run, SheetRun { desk: MagicString::new("é").unwrap(), answers: Vec::new() });
}

#[test]
fn calls_go_on_behind_a_refusal() {
  let run = run(
    r#"source "abcdef"
    update 2 4 "X"
    append_left 3 "?"
    append_left 1 "\xFF"
    remove 5 4
    append_right 4 "!"
    reset 0 7
    remove 0 1"#,
  )
  .unwrap();
  let answers = [
    Ok(()),
    Err(Refusal::CutInReplacement),
    Err(Refusal::NotUtf8),
    Err(Refusal::EndBeforeStart),
    Ok(()),
    Err(Refusal::PastSource),
    Ok(()),
  ];
  assert_eq!(run.answers, answers);
  assert_eq!(run.desk.to_string(), "bX!ef");
}

/// The pieces of the first chunk go.
#[test]
fn an_update_is_with_overwrite() {
  let run = run("source \"ab\"\nappend_right 0 \"<\"\nupdate 0 1 \"A\"").unwrap();
  assert_eq!(run.desk.to_string(), "Ab");
}

#[test]
fn later_calls() {
  let SheetRun { mut desk, .. } = run("source \"abc\"\nrelocate 0 2 3").unwrap();
  let mut made = MagicString::new("abc").unwrap();
  made.relocate(0, 2, 3).unwrap();
  for desk in [&mut desk, &mut made] {
    assert_eq!(desk.relocate(1, 3, 0).err(), Some(Refusal::NotTogether));
    desk.insert(2, "!", Left, Back).unwrap().update(2, 3, "C").unwrap().append(".").unwrap();
    assert_eq!(desk.to_string(), "Cab!.");
    assert_eq!(desk.slice(0, Some(2)), Ok("ab!".to_string()));
    desk.reset(0, 3).unwrap();
  }
  assert_eq!(desk, made);
}

/// In the order 16, 13, 1.
#[test]
fn refused_sheets() {
  let source = |source: Vec<u8>| Sheet { source, records: Vec::new() }.bytes();
  let longest = source(vec![b'a'; SOURCE_BYTES]);
  assert_eq!(MagicString::run_sheet(&longest).unwrap().desk.len(), SOURCE_BYTES);
  let longer = source(vec![0xFF; SOURCE_BYTES + 1]);
  assert_eq!(MagicString::run_sheet(&longer), Err(Refusal::Limit));
  assert_eq!(run("source \"73\\xFF\"\nremove 0 1"), Err(Refusal::NotUtf8));

  // A last record that breaks a rule behind a source that is too long.
  for wrong in [&b"\0"[..], b"\0\0", b"\0\x01\x09", b"\0\x08\x01\0\0\0\0\0\0\0"] {
    assert_eq!(MagicString::run_sheet(&[&longer, wrong].concat()), Err(Refusal::BadSheet));
  }
  let other_version = [&[2], &longer[1..]].concat();
  assert_eq!(MagicString::run_sheet(&other_version), Err(Refusal::BadSheet));
}

#[test]
fn the_largest_sheets() {
  let call = |_| Record { kind: 4, positions: vec![1], text: b"x".to_vec() };
  let calls = |count| Sheet { source: b"ab".to_vec(), records: (0..count).map(call).collect() };
  let run = MagicString::run_sheet(&calls(SHEET_RECORDS).bytes()).unwrap();
  assert_eq!(run.answers, [Ok(()); SHEET_RECORDS]);
  assert_eq!(run.desk.to_string(), format!("a{}b", "x".repeat(SHEET_RECORDS)));
  let more = calls(SHEET_RECORDS + 1).bytes();
  assert_eq!(MagicString::run_sheet(&more), Err(Refusal::BadSheet));

  // One text fills the sheet. It is longer than what a desk holds.
  let text = |length| Record { kind: 4, positions: vec![0], text: vec![b'x'; length] };
  let filled = |length| Sheet { source: Vec::new(), records: vec![text(length)] }.bytes();
  let room = SHEET_BYTES - filled(0).len();
  let run = MagicString::run_sheet(&filled(room)).unwrap();
  assert_eq!((run.answers, run.desk), (vec![Err(Refusal::Limit)], MagicString::default()));
  assert_eq!(MagicString::run_sheet(&filled(room + 1)), Err(Refusal::BadSheet));
}

fn one_by_one(desk: &mut MagicString, record: &Record) -> Result<(), Refusal> {
  call(desk, record.kind, &record.positions, &record.text)
}

#[test]
fn random_sheets_as_one_by_one() {
  let mut random = Random(1);
  let mut met = BTreeSet::new();
  for _ in 0..1_000 {
    let sheet = Sheet::any(&mut random, 20);
    let run = MagicString::run_sheet(&sheet.bytes());
    let one_by_one = MagicString::from_utf8(&sheet.source[..]).map(|mut desk| {
      let answers = sheet.records.iter().map(|record| one_by_one(&mut desk, record)).collect();
      SheetRun { desk, answers }
    });
    assert_eq!(run, one_by_one);
    met.extend(run.map_or_else(|refusal| vec![Err(refusal)], |run| run.answers));
  }
  // Every answer that such calls have, but for the limit.
  let mut refusals = Refusal::ALL.to_vec();
  refusals.retain(|&refusal| refusal <= Refusal::PastSource && refusal != Refusal::NotWellFormed);
  assert_eq!(met, refusals.into_iter().map(Err).chain([Ok(())]).collect());
}

/// A sheet with a byte that is changed, left out or put in is refused by 16 if and only
/// if it makes no script.
#[test]
fn random_damage() {
  let mut random = Random(2);
  let mut met = [0; 2];
  for _ in 0..4_000 {
    let mut sheet = Sheet::any(&mut random, 4).bytes();
    let at = random.below(sheet.len());
    let byte = [0, 1, 2, 4, 8, 9, 13, random.below(256)][random.below(8)] as u8;
    match random.below(3) {
      0 => sheet[at] = byte,
      1 => drop(sheet.remove(at)),
      _ => sheet.insert(at, byte),
    }
    let is_bad = MagicString::run_sheet(&sheet) == Err(Refusal::BadSheet);
    assert_eq!(is_bad, to_script(&sheet).is_err(), "{sheet:?}");
    met[usize::from(is_bad)] += 1;
  }
  assert!(met.iter().all(|&sheets| sheets > 100), "{met:?}");
}
