//! The program join_lists: scripts and bytes, what it prints, and its status. `./join` runs
//! it on examples/lists (bindings/rust/check).

use std::{fs, path::Path, process::Command};

use sheet_script::{to_list, to_sheet};

const SHEET: &str = "source \"abcdef\"\nupdate 2 4 \"X\"\nremove 3 5\n";
const FIRST: &str = "remove 0 1\n";
const SECOND: &str = "append_left 6 \"!\"\n";

/// The path of a file with this content.
fn file(name: &str, content: impl AsRef<[u8]>) -> String {
  let path = Path::new(env!("CARGO_TARGET_TMPDIR")).join(name);
  fs::write(&path, content).unwrap();
  path.into_os_string().into_string().unwrap()
}

/// The status, and what the program prints; the other stream must be empty.
fn run(arguments: &[String]) -> (Option<i32>, String) {
  let output = Command::new(env!("CARGO_BIN_EXE_join_lists")).args(arguments).output().unwrap();
  assert!(output.stdout.is_empty() || output.stderr.is_empty());
  let printed = [output.stdout, output.stderr].concat();
  (output.status.code(), String::from_utf8(printed).unwrap())
}

/// The calls that the sheet could not make are told of, and the text has nothing behind it.
#[test]
fn lists_that_join() {
  let printed = "Call 2 of the sheet is refused with 6: cut inside a non-empty replacement\n\
                 The lists join. Cuts: 1. The text:\nbXef!";
  let scripts = [
    file("joins.script", SHEET),
    file("joins_first.script", FIRST),
    file("joins_second.script", SECOND),
  ];
  assert_eq!(run(&scripts), (Some(0), printed.to_string()));
  let bytes = [
    file("joins.sheet", to_sheet(SHEET.as_bytes()).unwrap()),
    file("joins_first.list", to_list(FIRST.as_bytes()).unwrap()),
    file("joins_second", to_list(SECOND.as_bytes()).unwrap()),
  ];
  assert_eq!(run(&bytes), (Some(0), printed.to_string()));
}

#[test]
fn lists_that_do_not_join() {
  let sheet = file("not.script", "source \"abc\"");
  let list = file("not_list.script", FIRST);
  let same = "The lists do not join, 18: calls to be joined are not apart\n  check 5: call 1 of the \
              first list (remove 0 to 1) and call 1 of the second list (remove 0 to 1) reach the \
              same byte, 0\n";
  assert_eq!(run(&[sheet.clone(), list.clone(), list.clone()]), (Some(1), same.to_string()));
  // Bytes that are no list.
  let bytes = file("not.list", b"\0\x01\x09");
  let no_list = "The lists do not join, 16: sheet, list or call breaks the rules of its form\n  \
                 the second list breaks the rules: record 1, byte 2: there is no kind 9\n";
  assert_eq!(run(&[sheet, list, bytes]), (Some(1), no_list.to_string()));
}

#[test]
fn what_is_wrong() {
  let (list, sheet) = (file("wrong_list.script", FIRST), file("wrong.script", SHEET));
  let usage = "usage: join_lists SHEET FIRST SECOND\n".to_string();
  assert_eq!(run(&[]), (Some(2), usage.clone()));
  assert_eq!(run(&[sheet.clone(), list.clone()]), (Some(2), usage));

  let wrong = |files: [&String; 3]| {
    let (status, printed) = run(&files.map(String::clone));
    assert_eq!(status, Some(2));
    printed
  };
  let no_source = "line 1: the source is missing before the first call";
  assert_eq!(wrong([&list, &list, &list]), format!("{list}: {no_source}\n"));
  assert_eq!(wrong([&sheet, &sheet, &list]), format!("{sheet}: line 1: a list has no source\n"));
  let broken = file("wrong.sheet", b"\x02");
  let words = "sheet, list or call breaks the rules of its form";
  assert_eq!(wrong([&broken, &list, &list]), format!("{broken}: {words}\n"));
  let missing = "no such folder/first.script".to_string();
  assert!(wrong([&sheet, &list, &missing]).starts_with(&format!("{missing}: ")));
}
