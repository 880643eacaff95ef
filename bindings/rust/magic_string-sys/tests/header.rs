//! The crate declares what include/magic_string.h does, and the lists of refusals are
//! one list: those of the header, of this crate, of the wrapper and of the library. So
//! are the limits.

use std::collections::BTreeSet;

use magic_string_sys::{NAMES, layout::*, numbers::NUMBERS};

const HEADER: &str = include_str!("../../../../include/magic_string.h");
const WRAPPER: &str = include_str!("../../magic_string/src/refusal.rs");
const LIBRARY: &str = include_str!("../../../../crates/memory_layout/src/refusal.rt");
const LIBRARY_LAYOUT: &str = include_str!("../../../../crates/memory_layout/src/lib.rt");
const LIBRARY_SHEET: &str = include_str!("../../../../crates/sheet_records/src/sheet.rt");

#[test]
fn the_functions() {
  let words = HEADER.split(|part: char| part != '(' && part != '_' && !part.is_alphanumeric());
  let calls = words.filter_map(|word| word.split_once('(')).map(|(name, _)| name);
  let declared: BTreeSet<&str> = calls.filter(|name| name.starts_with("magic_string_")).collect();
  assert_eq!(declared, NAMES.iter().copied().collect());
  assert_eq!(declared.len(), NAMES.len());
}

/// The value of a `#define`: numbers, other such names, sums and products.
fn defined(name: &str) -> usize {
  // A backslash at the end of a line joins the next one to it.
  let header = HEADER.replace("\\\n", "");
  let line = header.lines().find_map(|line| line.strip_prefix(&format!("#define {name} ")));
  let line = line.unwrap_or_else(|| panic!("{name} is not there"));
  value(&line.replace("UINT32_C", ""), defined)
}

/// The value of a constant of the library's layout, the same way.
fn constant(name: &str) -> usize {
  let before = format!("pub const {name}: usize = ");
  let line = LIBRARY_LAYOUT.lines().find_map(|line| line.strip_prefix(&before));
  let line = line.and_then(|line| line.strip_suffix(';'));
  value(line.unwrap_or_else(|| panic!("{name} is not there")), constant)
}

/// The value of a text: the last sum or product outside brackets is made last.
fn value(text: &str, named: fn(&str) -> usize) -> usize {
  let text = text.trim();
  for sign in ['+', '*'] {
    let mut depth = 0;
    for (at, part) in text.char_indices().rev() {
      match part {
        ')' => depth += 1,
        '(' => depth -= 1,
        _ if depth == 0 && part == sign => {
          let (left, right) = (value(&text[..at], named), value(&text[at + 1..], named));
          return if sign == '+' { left + right } else { left * right };
        }
        _ => {}
      }
    }
  }
  if let Some(inside) = text.strip_prefix('(').and_then(|rest| rest.strip_suffix(')')) {
    return value(inside, named);
  }
  match text.strip_prefix("0x") {
    Some(digits) => usize::from_str_radix(digits, 16).unwrap(),
    None => text.parse().unwrap_or_else(|_| named(text)),
  }
}

/// Limits and lengths of a desk and of a record.
const LENGTHS: [(&str, usize); 20] = [
  ("SOURCE_BYTES", SOURCE_BYTES),
  ("CHUNKS", CHUNKS),
  ("PIECES", PIECES),
  ("STORE_BYTES", STORE_BYTES),
  ("RECORD_CALLS", RECORD_CALLS),
  ("RECORD_TEXT", RECORD_TEXT),
  ("RECORD_FRONT", RECORD_FRONT),
  ("RECORD_USED", RECORD_USED),
  ("RECORD_ANSWERS", RECORD_ANSWERS),
  ("RECORD_MARKS", RECORD_MARKS),
  ("KEPT_CHUNKS", KEPT_CHUNKS),
  ("KEPT_PIECES", KEPT_PIECES),
  ("KEPT_STORE", KEPT_STORE),
  ("CHUNKS_LEN", CHUNKS_LEN),
  ("PIECES_LEN", PIECES_LEN),
  ("STORE_LEN", STORE_LEN),
  ("RECORD_WORDS_LEN", RECORD_WORDS_LEN),
  ("RECORD_BYTES_LEN", RECORD_BYTES_LEN),
  ("ROW", ROW),
  ("PIECE", PIECE),
];

#[test]
fn limits_lengths_and_marks() {
  let others = [
    ("SHEET_VERSION", SHEET_VERSION.into()),
    ("SHEET_FRONT", SHEET_FRONT),
    ("SHEET_RECORDS", SHEET_RECORDS),
    ("SHEET_BYTES", SHEET_BYTES),
    ("HIGHEST_MARKS", HIGHEST_MARKS as usize),
    ("LIST_END", LIST_END as usize),
    ("NONE", NONE as usize),
    ("NO_CHAR", NO_CHAR as usize),
  ];
  for (name, value) in LENGTHS.into_iter().chain(others) {
    assert_eq!(defined(&format!("MAGIC_STRING_{name}")), value, "{name}");
  }
}

#[test]
fn limits_and_lengths_of_the_library() {
  for (name, value) in LENGTHS {
    assert_eq!(constant(name), value, "{name}");
  }
  let highest = format!("pub const HIGHEST_MARKS: u32 = {HIGHEST_MARKS};");
  assert!(LIBRARY_LAYOUT.lines().any(|line| line == highest), "no line {highest}");
}

/// What stands between the commas of the header's n-th enum.
fn members(n: usize) -> Vec<&'static str> {
  let names = HEADER.split("enum {").nth(n).and_then(|rest| rest.split("};").next()).unwrap();
  names.split(',').map(str::trim).collect()
}

#[test]
fn words_of_a_row() {
  let values = [
    ("START", START),
    ("END", END),
    ("NEXT", NEXT),
    ("PREV", PREV),
    ("INTRO_AT", INTRO_AT),
    ("INTRO_N", INTRO_N),
    ("OUTRO_AT", OUTRO_AT),
    ("OUTRO_N", OUTRO_N),
    ("TEXT_AT", TEXT_AT),
    ("TEXT_N", TEXT_N),
    ("MARK", MARK),
  ];
  let words = members(1);
  assert_eq!(words.len(), values.len());
  for (name, value) in values {
    assert_eq!(words[value], format!("MAGIC_STRING_{name}"));
  }
  let words = members(2);
  assert_eq!(words.len(), 2);
  assert_eq!(words[PIECE_AT], "MAGIC_STRING_PIECE_AT");
  assert_eq!(words[PIECE_N], "MAGIC_STRING_PIECE_N");
}

/// A name and its number, with this between them.
fn numbered<'a>(line: &'a str, between: &str) -> Option<(&'a str, u32)> {
  let (name, number) = line.split_once(between)?;
  Some((name, number.parse().ok()?))
}

#[test]
fn numbers_of_the_header() {
  let listed = members(3).into_iter().map(|member| {
    let named = member.strip_prefix("MAGIC_STRING_").and_then(|rest| numbered(rest, " = "));
    named.unwrap_or_else(|| panic!("not a name and its number: {member}"))
  });
  assert_eq!(listed.collect::<Vec<_>>(), NUMBERS);
}

/// The lines of a text's `pub enum Refusal` but its comments, trimmed.
fn variants(text: &'static str) -> impl Iterator<Item = &'static str> {
  let (_, behind) = text.split_once("pub enum Refusal {\n").expect("the enum");
  let (variants, _) = behind.split_once("\n}").expect("its end");
  variants.lines().map(str::trim).filter(|line| !line.starts_with("//"))
}

#[test]
fn numbers_of_the_library() {
  let listed = variants(LIBRARY).map(|line| {
    let named = line.strip_suffix(',').and_then(|rest| numbered(rest, " = "));
    named.unwrap_or_else(|| panic!("not a name and its number: {line}"))
  });
  let expected: Vec<_> = NUMBERS.iter().map(|(name, number)| (variant(name), *number)).collect();
  assert_eq!(listed.map(|(name, number)| (name.to_string(), number)).collect::<Vec<_>>(), expected);
}

#[test]
fn limits_of_a_sheet_in_the_library() {
  let values = [
    ("VERSION: u8", SHEET_VERSION.into()),
    ("FRONT: usize", SHEET_FRONT),
    ("MOST_RECORDS: usize", SHEET_RECORDS),
    ("MOST_BYTES: usize", SHEET_BYTES),
  ];
  for (name, value) in values {
    let constant = format!("pub const {name} = {value};");
    assert!(LIBRARY_SHEET.lines().any(|line| line == constant), "no line {constant}");
  }
}

/// A name as Rust writes that of a variant: `NOT_UTF8` is `NotUtf8`.
fn variant(name: &str) -> String {
  let word = |word: &str| word[..1].to_string() + &word[1..].to_lowercase();
  name.split('_').map(word).collect()
}

/// Each variant takes its number from the constant of its name.
#[test]
fn numbers_of_the_wrapper() {
  let expected = NUMBERS.iter().map(|(name, _)| format!("{} = numbers::{name},", variant(name)));
  assert_eq!(variants(WRAPPER).collect::<Vec<_>>(), expected.collect::<Vec<_>>());
}
