//! The program: files and standard input, what it prints, and its status.

use std::{
  fs,
  io::Write,
  path::Path,
  process::{Command, Output, Stdio},
};

/// Runs the program with this input.
fn run(arguments: &[&str], input: &[u8]) -> Output {
  let mut command = Command::new(env!("CARGO_BIN_EXE_sheet_script"));
  command.args(arguments).stdin(Stdio::piped()).stdout(Stdio::piped()).stderr(Stdio::piped());
  let mut program = command.spawn().unwrap();
  // A program that does not read its input may have ended already.
  let _ = program.stdin.take().unwrap().write_all(input);
  program.wait_with_output().unwrap()
}

/// Its standard output, where all is well.
fn printed(arguments: &[&str], input: &[u8]) -> Vec<u8> {
  let output = run(arguments, input);
  assert_eq!((output.status.code(), &output.stderr[..]), (Some(0), &b""[..]));
  output.stdout
}

/// Its standard error, where something is wrong.
fn refused(arguments: &[&str], input: &[u8]) -> String {
  let output = run(arguments, input);
  assert_eq!((output.status.code(), &output.stdout[..]), (Some(1), &b""[..]));
  String::from_utf8(output.stderr).unwrap()
}

const SCRIPT: &[u8] = b"source \"abc\"\nrelocate 0 2 3\n";
const SHEET: &[u8] = b"\x01\0\x03abc\0\x0D\x08\0\0\0\0\0\0\0\x02\0\0\0\x03";

#[test]
fn standard_input() {
  assert_eq!(printed(&["to-sheet"], SCRIPT), SHEET);
  assert_eq!(printed(&["to-script"], SHEET), SCRIPT);
  let script = b"source \"abc\"\n\n# half a range\nremove 1\n";
  assert_eq!(refused(&["to-sheet"], script), "line 4: remove takes two positions\n");
  assert_eq!(refused(&["to-script"], b"\x02"), "byte 0: the version is 2, not 1\n");
}

#[test]
fn lists() {
  let (script, list) = (&SCRIPT[13..], &SHEET[6..]);
  assert_eq!(printed(&["to-list"], script), list);
  assert_eq!(printed(&["list-to-script"], list), script);
  assert_eq!(refused(&["to-list"], SCRIPT), "line 1: a list has no source\n");
  let what = "record 1, byte 0: the record's length is 256, but there are only 4 bytes more\n";
  assert_eq!(refused(&["list-to-script"], &SHEET[..6]), what);
}

/// The path of a file with this content.
fn file(name: &str, content: &[u8]) -> String {
  let path = Path::new(env!("CARGO_TARGET_TMPDIR")).join(name);
  fs::write(&path, content).unwrap();
  path.into_os_string().into_string().unwrap()
}

#[test]
fn files() {
  let script = file("tool.script", SCRIPT);
  assert_eq!(printed(&["to-sheet", &script], b"not read"), SHEET);
  let sheet = file("tool.sheet", SHEET);
  assert_eq!(printed(&["to-script", &sheet], b"not read"), SCRIPT);

  let short = file("tool_short.sheet", &SHEET[..SHEET.len() - 1]);
  let what = "record 1, byte 6: the record's length is 13, but there are only 12 bytes more";
  assert_eq!(refused(&["to-script", &short], b""), format!("{short}: {what}\n"));
  let missing = "no such folder/tool.script";
  assert!(refused(&["to-sheet", missing], b"").starts_with(&format!("{missing}: ")));
}

#[test]
fn arguments() {
  for arguments in [&[][..], &["to-text"], &["to-sheet", "a", "b"], &["--help"]] {
    assert!(refused(arguments, b"").starts_with("usage: "));
  }
}
