//! The limits are those of include/magic_string.h.

use sheet_script::limits::{SHEET_BYTES, SHEET_FRONT, SHEET_RECORDS, SHEET_VERSION};

const HEADER: &str = include_str!("../../../../include/magic_string.h");

#[test]
fn limits() {
  let values = [
    ("SHEET_VERSION", SHEET_VERSION.into()),
    ("SHEET_FRONT", SHEET_FRONT),
    ("SHEET_RECORDS", SHEET_RECORDS),
    ("SHEET_BYTES", SHEET_BYTES),
  ];
  for (name, value) in values {
    let line = format!("#define MAGIC_STRING_{name} {value}");
    assert!(HEADER.lines().any(|has| has == line), "{line}");
  }
}
