//! A sheet's script makes the same sheet again, byte for byte.

mod plain;
mod random;

use plain::{Record, Sheet};
use random::Random;
use sheet_script::{
  limits::{SHEET_BYTES, SHEET_FRONT, SHEET_RECORDS},
  to_script, to_sheet,
};

/// The script of a sheet, which makes the same sheet.
fn made_again(sheet: &[u8]) -> String {
  let script = to_script(sheet).unwrap();
  assert_eq!(to_sheet(script.as_bytes()).unwrap(), sheet, "{script}");
  script
}

#[test]
fn random_sheets() {
  let mut random = Random(1);
  for _ in 0..5_000 {
    made_again(&Sheet::any(&mut random, 12).bytes());
  }
}

#[test]
fn every_byte() {
  for byte in 0..=255 {
    made_again(&Sheet { source: vec![byte], records: Vec::new() }.bytes());
  }
  let all = || (0..=255).collect();
  let record = Record { kind: 2, positions: vec![0, u32::MAX], text: all() };
  let script = made_again(&Sheet { source: all(), records: vec![record] }.bytes());
  // No two of these bytes are one character, so the script is printable ASCII.
  assert!(script.bytes().all(|byte| byte == b'\n' || (b' '..=b'~').contains(&byte)));
}

#[test]
fn characters_are_shown_as_they_are() {
  let sheet = Sheet { source: "Ålesund 7 °C – 😀\u{301}\n".into(), records: Vec::new() };
  assert_eq!(made_again(&sheet.bytes()), "source \"Ålesund 7 °C – 😀\\xCC\\x81\\n\"\n");
}

#[test]
fn a_line_for_each_line_of_the_source() {
  let script = |source: &str| to_script(&Sheet { source: source.into(), records: vec![] }.bytes());
  assert_eq!(script("").unwrap(), "source \"\"\n");
  assert_eq!(script("a\n\nb").unwrap(), "source \"a\\n\"\nsource \"\\n\"\nsource \"b\"\n");
}

/// As many records and as many bytes as a sheet may have.
#[test]
fn the_largest_sheets() {
  let mut random = Random(2);
  let mut sheet = Sheet::any(&mut random, 0);
  while sheet.records.len() < SHEET_RECORDS {
    sheet.records.extend(Sheet::any(&mut random, 1).records);
  }
  made_again(&sheet.bytes());

  // The library refuses to open this source, which is no fault of the sheet.
  let source = vec![b'a'; SHEET_BYTES - SHEET_FRONT];
  made_again(&Sheet { source, records: Vec::new() }.bytes());

  let text = vec![0xFF; SHEET_BYTES - SHEET_FRONT - 7];
  let records = vec![Record { kind: 4, positions: vec![0], text }];
  made_again(&Sheet { source: Vec::new(), records }.bytes());
}
