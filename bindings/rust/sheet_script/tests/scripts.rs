//! What a script may say, and what is wrong with others.

mod plain;

use plain::{Record, Sheet};
use sheet_script::{
  limits::{SHEET_BYTES, SHEET_FRONT, SHEET_RECORDS},
  to_sheet,
};

/// The sheet of this source and these records.
fn sheet(source: &[u8], records: &[(u8, &[u32], &[u8])]) -> Vec<u8> {
  let record = |&(kind, positions, text): &(u8, &[u32], &[u8])| Record {
    kind,
    positions: positions.to_vec(),
    text: text.to_vec(),
  };
  Sheet { source: source.to_vec(), records: records.iter().map(record).collect() }.bytes()
}

fn error(script: impl AsRef<[u8]>) -> String {
  to_sheet(script.as_ref()).unwrap_err().to_string()
}

#[test]
fn every_kind() {
  let script = r#"source "abc"
remove 1 2
update 3 4 "t"
reset 5 6
append_left 7 "u"
append_right 8 "v"
prepend_left 9 "w"
prepend_right 10 ""
relocate 11 12 4294967295
"#;
  let records: [(u8, &[u32], &[u8]); 8] = [
    (1, &[1, 2], b""),
    (2, &[3, 4], b"t"),
    (3, &[5, 6], b""),
    (4, &[7], b"u"),
    (5, &[8], b"v"),
    (6, &[9], b"w"),
    (7, &[10], b""),
    (8, &[11, 12, u32::MAX], b""),
  ];
  assert_eq!(to_sheet(script.as_bytes()).unwrap(), sheet(b"abc", &records));
}

#[test]
fn document_02_example() {
  let expected =
    b"\x01\x00\x03\x61\x62\x63\x00\x0D\x08\x00\x00\x00\x00\x00\x00\x00\x02\x00\x00\x00\x03";
  assert_eq!(to_sheet(b"source \"abc\"\nrelocate 0 2 3").unwrap(), expected);
}

/// Blank lines, comments, blanks around words, and lines that end with a carriage
/// return and a line feed.
#[test]
fn blanks_and_comments() {
  let plain = to_sheet(b"source \"a#b\"\nremove 0 1\nappend_left 3 \"#\"\n").unwrap();
  let script = "\n# first\n\tsource   \"a#b\"# the text\r\n \r\n remove\t0  001 # \"\n\
                append_left 3 \"#\"  ";
  assert_eq!(to_sheet(script.as_bytes()).unwrap(), plain);
}

#[test]
fn sources_stand_one_behind_the_other() {
  let joined = to_sheet(b"source \"a\\n\"\n# more\nsource \"\"\nsource \"b\"").unwrap();
  assert_eq!(joined, sheet(b"a\nb", &[]));
}

#[test]
fn escapes() {
  let script = r#"source "\n\t\r\"\\\x00\xfF\xC3\xA9é""#;
  assert_eq!(to_sheet(script.as_bytes()).unwrap(), sheet(b"\n\t\r\"\\\0\xFF\xC3\xA9\xC3\xA9", &[]));
}

#[test]
fn a_line_that_is_wrong() {
  let cases = [
    (r#"remove 1"#, "remove takes two positions"),
    (r#"remove 1 2 3"#, "remove takes two positions"),
    (r#"remove 1 2 "x""#, "remove takes two positions"),
    (r#"update 1 2"#, "update takes two positions and a text"),
    (r#"update 1 "x" 2"#, "update takes two positions and a text"),
    (r#"append_left "x""#, "append_left takes one position and a text"),
    (r#"append_left 1 "x" "y""#, "append_left takes one position and a text"),
    (r#"relocate 1 2"#, "relocate takes three positions"),
    (r#"source 1"#, "source takes a text"),
    (r#"source "a" "b""#, "source takes a text"),
    (r#"append "x""#, "append is no call of a sheet"),
    (r#"Remove 1 2"#, "Remove is no call of a sheet"),
    (r#"remove -1 2"#, "-1 is no position and no text between quotes"),
    (r#"remove +1 2"#, "+1 is no position and no text between quotes"),
    (r#"remove 1 0x2"#, "0x2 is no position and no text between quotes"),
    (r#"remove 1 4294967296"#, "position 4294967296 is above 4294967295"),
    (r#"append_left 1 x"#, "x is no position and no text between quotes"),
    (r#"append_left 1"x""#, "1\"x\" is no position and no text between quotes"),
    (r#"append_left 1 "x"#, "the text has no closing quote"),
    (r#"append_left 1 "x\"#, "the text has no closing quote"),
    (r#"append_left 1 "x\""#, "the text has no closing quote"),
    (r#"append_left 1 "\q""#, r#"\q is no escape: use \n \t \r \" \\ \xHH"#),
    (r#"append_left 1 "\x4""#, r#"\x takes two hexadecimal digits"#),
    (r#"append_left 1 "\x+4""#, r#"\x takes two hexadecimal digits"#),
    (r#"append_left 1 "\xé""#, r#"\x takes two hexadecimal digits"#),
  ];
  for (line, what) in cases {
    let script = format!("source \"abc\"\n\n# a comment\n{line}\nremove 0 1\n");
    assert_eq!(error(script), format!("line 4: {what}"));
  }
  assert_eq!(error(b"source \"a\"\nsource \"\xFF\""), "line 2: the line is not UTF-8: use \\xHH");
}

#[test]
fn the_source_comes_first() {
  assert_eq!(error(""), "line 1: the script has no source");
  assert_eq!(error("# nothing\n\n"), "line 3: the script has no source");
  assert_eq!(error("remove 0 1"), "line 1: the source is missing before the first call");
  let late = "source \"a\"\nremove 0 1\nsource \"b\"";
  assert_eq!(error(late), "line 3: the source stands before the calls");
}

#[test]
fn limits() {
  let calls = |count| "source \"a\"\n".to_string() + &"remove 0 1\n".repeat(count);
  assert!(to_sheet(calls(SHEET_RECORDS).as_bytes()).is_ok());
  assert_eq!(error(calls(SHEET_RECORDS + 1)), "line 202: a sheet has at most 200 calls");

  let source = |length| format!("source \"{}\"", "a".repeat(length));
  assert!(to_sheet(source(16_385).as_bytes()).is_ok());
  assert!(to_sheet(source(SHEET_BYTES - SHEET_FRONT).as_bytes()).is_ok());
  let size = "a sheet has at most 57344 bytes";
  assert_eq!(error(source(SHEET_BYTES - SHEET_FRONT + 1)), format!("line 1: {size}"));
  assert_eq!(error(source(65_535)), format!("line 1: {size}"));
  assert_eq!(error(source(65_536)), "line 1: the source has more than 65535 bytes");

  let text = |length| format!("source \"\"\nupdate 0 1 \"{}\"", "a".repeat(length));
  assert!(to_sheet(text(SHEET_BYTES - SHEET_FRONT - 11).as_bytes()).is_ok());
  assert_eq!(error(text(SHEET_BYTES - SHEET_FRONT - 10)), format!("line 2: {size}"));
  assert_eq!(error(text(65_526)), format!("line 2: {size}"));
  assert_eq!(error(text(65_527)), "line 2: a text of update has at most 65526 bytes");

  // The line that breaks the size is named, not the last one.
  let many = source(50_000) + "\nappend_left 0 \"" + &"a".repeat(8_000) + "\"\nremove 0 1";
  assert_eq!(error(many), format!("line 2: {size}"));
}
