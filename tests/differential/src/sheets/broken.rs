//! Small sheets, and each with one rule broken in each place.

use oracle::{
  APPEND_LEFT, APPEND_RIGHT,
  Call::{self, *},
  PREPEND_LEFT, PREPEND_RIGHT, Setting,
};

use super::fields::{Fields, Record};

/// What a sheet is there to try, and its bytes.
pub type Tried = (&'static str, Vec<u8>);

pub fn all() -> Vec<Tried> {
  let with = |sheet: Fields| ("a kind with a length", sheet.bytes());
  let mut all: Vec<Tried> = kinds_and_lengths().map(with).collect();
  for sheet in small() {
    all.push(("small sheets", sheet.bytes()));
    all.extend(cut_short(&sheet.bytes()));
    all.extend(bits(&sheet.bytes()));
    let changed = head_changed(&sheet).into_iter().chain(list_changed(&sheet));
    all.extend(changed.map(|(tries, sheet)| (tries, sheet.bytes())));
  }
  all
}

/// The records of these calls, with a rule broken in each place.
pub fn lists(calls: &[Call]) -> Vec<Vec<u8>> {
  let sheet = Fields::of(b"", calls);
  let list = sheet.list();
  let short_or_turned = cut_short(&list).into_iter().chain(bits(&list)).map(|(_, list)| list);
  let changed = list_changed(&sheet).into_iter().map(|(_, sheet)| sheet.list());
  short_or_turned.chain(changed).collect()
}

/// The request's example, sheets with little in them, and one with every kind.
fn small() -> [Fields; 5] {
  [
    Fields::of(b"abc", &[Relocate { start: 0, end: 2, to: 3 }]),
    Fields::of(b"", &[]),
    Fields::of(b"", &[insert(APPEND_LEFT, 0, b"x"), Remove { start: 0, end: 1 }]),
    // The source is not UTF-8.
    Fields::of(b"a\xc3", &[Remove { start: 0, end: 1 }]),
    Fields::of("aé€😀b".as_bytes(), &every_kind()),
  ]
}

fn insert(setting: Setting, at: u32, text: &[u8]) -> Call {
  Insert { at, text: text.to_vec(), setting }
}

/// Each kind once, and a text that is not UTF-8.
pub fn every_kind() -> Vec<Call> {
  vec![
    insert(APPEND_LEFT, 3, b"<"),
    UpdateWith { start: 1, end: 3, overwrite: 1, text: "É".into() },
    insert(APPEND_RIGHT, 6, b""),
    insert(PREPEND_LEFT, 6, b"xy"),
    insert(PREPEND_RIGHT, 0, b"\xff"),
    insert(PREPEND_RIGHT, 0, b">"),
    Remove { start: 0, end: 1 },
    Reset { start: 0, end: 3 },
    Relocate { start: 0, end: 3, to: 11 },
  ]
}

/// The bytes up to each place.
fn cut_short(bytes: &[u8]) -> Vec<Tried> {
  (0..bytes.len()).map(|len| ("cut short", bytes[..len].to_vec())).collect()
}

/// Each bit turned.
fn bits(bytes: &[u8]) -> Vec<Tried> {
  let turned = |bit: usize| {
    let mut bytes = bytes.to_vec();
    bytes[bit / 8] ^= 1 << (bit % 8);
    ("a bit turned", bytes)
  };
  (0..8 * bytes.len()).map(turned).collect()
}

/// Each record changed, and bytes behind the last.
fn list_changed(sheet: &Fields) -> Vec<(&'static str, Fields)> {
  let changed = (0..sheet.records.len()).flat_map(|place| record_changed(sheet, place));
  changed.chain(lengthened(sheet)).collect()
}

/// Bytes behind the last record that are none.
fn lengthened(sheet: &Fields) -> Vec<(&'static str, Fields)> {
  const BEHIND: [&[u8]; 8] =
    [b"\0", b"\x01", b"\n", b"\xff", b"\0\0", b"\0\x01", b"\0\x01\x01", b"\0\x05\x04\0\0\0"];
  let with = |rest: &[u8]| Fields { rest: rest.to_vec(), ..sheet.clone() };
  BEHIND.iter().map(|rest| ("bytes behind the records", with(rest))).collect()
}

/// The version, and the length of the source.
pub fn head_changed(sheet: &Fields) -> Vec<(&'static str, Fields)> {
  let versions = [0, 2, 3, 0x80, 0x81, 0xff].map(|version| Fields { version, ..sheet.clone() });
  let lengths = beside(sheet.source_len).map(|source_len| Fields { source_len, ..sheet.clone() });
  let lengths = lengths.map(|sheet| ("the source's length", sheet));
  versions.map(|sheet| ("the version", sheet)).into_iter().chain(lengths).collect()
}

/// One record with another length, another kind, or fewer or more bytes.
pub fn record_changed(sheet: &Fields, place: usize) -> Vec<(&'static str, Fields)> {
  let Record { len, body } = &sheet.records[place];
  let with = |record: Record| {
    let mut sheet = sheet.clone();
    sheet.records[place] = record;
    sheet
  };
  let lengths = beside(*len).map(|len| with(Record { len, body: body.clone() }));
  let kinds = [0, 1, 2, 3, 4, 5, 6, 7, 8, 9, 255].map(|kind| {
    let mut body = body.clone();
    body[0] = kind;
    with(Record::new(body))
  });
  // The last bytes are missing, of the text and then of the positions, or there are
  // more.
  let resized = (body.len().saturating_sub(20)..=body.len() + 5).map(|len| {
    let mut body = body.clone();
    body.resize(len, b'x');
    with(Record::new(body))
  });
  let lengths = lengths.map(|sheet| ("a record's length", sheet));
  let kinds = kinds.map(|sheet| ("a record's kind", sheet));
  let resized = resized.map(|sheet| ("a record's bytes, fewer or more", sheet));
  lengths.into_iter().chain(kinds).chain(resized).collect()
}

/// What a length field may hold that is wrong: one less or more, itself counted, the
/// low byte first, nothing, and the most.
fn beside(len: u16) -> [u16; 7] {
  let [one_less, one_more] = [len.wrapping_sub(1), len.wrapping_add(1)];
  [0, 1, one_less, one_more, len.wrapping_add(2), len.swap_bytes(), u16::MAX]
}

/// One record of each kind and of some that are none, of each length up to a byte more
/// than any kind's positions have.
pub fn kinds_and_lengths() -> impl Iterator<Item = Fields> {
  let kinds = (0..=16).chain(0x80..=0x88).chain([0xff]);
  let record = |kind, len| {
    let mut body = vec![kind];
    body.resize(len, 0);
    Fields { records: vec![Record::new(body)], ..Fields::of(b"abc", &[]) }
  };
  kinds.flat_map(move |kind| (0..=14).map(move |len| record(kind, len)))
}
