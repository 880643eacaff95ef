//! What is wrong with bytes that are no sheet.

mod plain;
mod random;

use plain::{Record, Sheet};
use random::Random;
use sheet_script::{
  limits::{SHEET_BYTES, SHEET_RECORDS},
  to_script,
};

fn error(sheet: impl AsRef<[u8]>) -> String {
  to_script(sheet.as_ref()).unwrap_err().to_string()
}

#[test]
fn before_the_records() {
  assert_eq!(error(b""), "byte 0: the sheet ends before its source");
  assert_eq!(error(b"\x01\0"), "byte 2: the sheet ends before its source");
  assert_eq!(error(b"\0"), "byte 0: the version is 0, not 1");
  assert_eq!(error(b"\x02\0\x03abc"), "byte 0: the version is 2, not 1");
  assert_eq!(
    error(b"\x01\x01\x03abc"),
    "byte 1: the source has 259 bytes, but the sheet only 3 more"
  );
  assert_eq!(to_script(b"\x01\0\x03abc").unwrap(), "source \"abc\"\n");
}

/// Behind the source "abc" and one record, which end at byte 17.
#[test]
fn a_record() {
  let cases: [(&[u8], &str); 16] = [
    (b"\0", "17: the bytes end inside the record's length"),
    (b"\0\0", "17: the record's length is 0"),
    (b"\0\x09\x01\0\0", "17: the record's length is 9, but there are only 3 bytes more"),
    (b"\x09\0\x01\0\0", "17: the record's length is 2304, but there are only 3 bytes more"),
    (b"\0\x01\0", "19: there is no kind 0"),
    (b"\0\x01\x09", "19: there is no kind 9"),
    (b"\0\x01\xFF", "19: there is no kind 255"),
    (b"\0\x08\x01\0\0\0\0\0\0\0", "17: the record's length is 8, but that of remove is 9"),
    (b"\0\x0A\x01\0\0\0\0\0\0\0\0\0", "17: the record's length is 10, but that of remove is 9"),
    (b"\0\x0A\x03\0\0\0\0\0\0\0\0\0", "17: the record's length is 10, but that of reset is 9"),
    (b"\0\x08\x02\0\0\0\0\0\0\0", "17: the record's length is 8, but that of update is at least 9"),
    (b"\0\x04\x04\0\0\0", "17: the record's length is 4, but that of append_left is at least 5"),
    (b"\0\x04\x05\0\0\0", "17: the record's length is 4, but that of append_right is at least 5"),
    (b"\0\x04\x06\0\0\0", "17: the record's length is 4, but that of prepend_left is at least 5"),
    (b"\0\x04\x07\0\0\0", "17: the record's length is 4, but that of prepend_right is at least 5"),
    (
      b"\0\x0C\x08\0\0\0\0\0\0\0\0\0\0\0",
      "17: the record's length is 12, but that of relocate is 13",
    ),
  ];
  let front = b"\x01\0\x03abc\0\x09\x01\0\0\0\0\0\0\0\x01";
  assert_eq!(to_script(front).unwrap(), "source \"abc\"\nremove 0 1\n");
  for (record, what) in cases {
    let sheet = [&front[..], record].concat();
    assert_eq!(error(sheet), format!("record 2, byte {what}"));
  }
}

#[test]
fn limits() {
  let record = || Record { kind: 1, positions: vec![0, 1], text: Vec::new() };
  let records = |count| (0..count).map(|_| record()).collect();
  let sheet = |count| Sheet { source: Vec::new(), records: records(count) }.bytes();
  assert!(to_script(&sheet(SHEET_RECORDS)).is_ok());
  assert_eq!(
    error(sheet(SHEET_RECORDS + 1)),
    "record 201, byte 2203: there are at most 200 records"
  );
  let source = vec![b'a'; SHEET_BYTES - 2];
  let longer = Sheet { source, records: Vec::new() }.bytes();
  assert_eq!(error(longer), "byte 57344: a sheet has at most 57344 bytes");
}

/// A sheet that is cut short is one only where a record ends, and a byte more makes it
/// none.
#[test]
fn cut_short_and_longer() {
  let mut random = Random(3);
  for _ in 0..200 {
    let mut sheet = Sheet::any(&mut random, 6);
    let bytes = sheet.bytes();
    let mut ends = vec![bytes.len()];
    while sheet.records.pop().is_some() {
      ends.push(sheet.bytes().len());
    }
    for length in 0..=bytes.len() {
      assert_eq!(to_script(&bytes[..length]).is_ok(), ends.contains(&length), "{length} {bytes:?}");
    }
    assert!(to_script(&[&bytes[..], b"\0"].concat()).is_err());
  }
}
