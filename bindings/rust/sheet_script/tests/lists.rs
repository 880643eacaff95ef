//! Lists: a sheet's records without its source, from scripts and back.

mod plain;
mod random;

use plain::{Record, Sheet};
use random::Random;
use sheet_script::{
  limits::{SHEET_BYTES, SHEET_FRONT, SHEET_RECORDS},
  list, list_to_script, to_list,
};

fn script_error(script: impl AsRef<[u8]>) -> String {
  to_list(script.as_ref()).unwrap_err().to_string()
}

fn list_error(list: impl AsRef<[u8]>) -> String {
  list_to_script(list.as_ref()).unwrap_err().to_string()
}

/// A list's script makes the same list again, byte for byte.
#[test]
fn random_lists() {
  let mut random = Random(1);
  for _ in 0..2_000 {
    let sheet = Sheet::any(&mut random, 12);
    let bytes = &sheet.bytes()[SHEET_FRONT + sheet.source.len()..];
    let script = list_to_script(bytes).unwrap();
    assert_eq!(to_list(script.as_bytes()).unwrap(), bytes, "{script}");
    assert_eq!(list(bytes).unwrap().len(), sheet.records.len());
  }
}

#[test]
fn no_call_at_all() {
  assert_eq!(to_list(b"# nothing\n\n").unwrap(), b"");
  assert_eq!(list_to_script(b"").unwrap(), "");
}

#[test]
fn what_is_wrong() {
  assert_eq!(script_error("remove 0 1\nsource \"a\""), "line 2: a list has no source");
  assert_eq!(script_error("\nremove 0"), "line 2: remove takes two positions");
  assert_eq!(list_error(b"\0\x01\x09"), "record 1, byte 2: there is no kind 9");
  assert_eq!(list_error(b"\0"), "record 1, byte 0: the bytes end inside the record's length");
}

/// A list may have as many calls and as many bytes as a sheet.
#[test]
fn limits() {
  let calls = |count| "remove 0 1\n".repeat(count);
  let most = to_list(calls(SHEET_RECORDS).as_bytes()).unwrap();
  assert_eq!(list(&most).unwrap().len(), SHEET_RECORDS);
  assert_eq!(script_error(calls(SHEET_RECORDS + 1)), "line 201: a list has at most 200 calls");
  let more = [&most[..], &most[..11]].concat();
  assert_eq!(list_error(more), "record 201, byte 2200: there are at most 200 records");

  let text = |length| format!("append_left 0 \"{}\"", "a".repeat(length));
  let most = to_list(text(SHEET_BYTES - 7).as_bytes()).unwrap();
  assert_eq!((most.len(), list(&most).unwrap().len()), (SHEET_BYTES, 1));
  let size = "a list has at most 57344 bytes";
  assert_eq!(script_error(text(SHEET_BYTES - 6)), format!("line 1: {size}"));
  let record = Record { kind: 4, positions: vec![0], text: vec![b'a'; SHEET_BYTES - 6] };
  assert_eq!(list_error(record.bytes()), format!("byte 57344: {size}"));
}
