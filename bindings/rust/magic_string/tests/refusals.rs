//! Each of the twenty-one refusals through the wrapper: document 01's own examples,
//! what the desk is afterwards, and which calls have them.
//!
//! Types rule out some ways to a number, though none of them all. 1: texts of
//! edits are `str`, so only `from_utf8` and `run_sheet` have it. 2: a `MagicString`
//! is well formed, so only `from_tables` has it. 14: the wrapper's own buffers are
//! long enough, so only `write_to` has it. 15: excluded ranges are pairs, so only
//! trims have it. 16: only `run_sheet` and `join` have it (tests/sheet.rs,
//! tests/join.rs). 17: only calls on a sitting have it (tests/sitting.rs, tests/marks.rs).
//! 18 and 19: only `join` has them (tests/join.rs). 20: tests/frozen.rs has its places. 21:
//! only `Examiner::set_marks` has it (tests/marks.rs).

use magic_string::{
  Call,
  End::{self, *},
  IndentOptions, MagicString, Refusal,
  Side::{self, *},
  Sitting, Span, layout,
};
use magic_string_sys::numbers::NUMBERS;

const SETTINGS: [(Side, End); 4] = [(Left, Front), (Left, Back), (Right, Front), (Right, Back)];

fn open(source: &str) -> MagicString {
  MagicString::new(source).unwrap()
}

/// The refusal that an edit of this desk gets, and that the output stays.
fn refused(
  desk: &mut MagicString,
  edit: impl FnOnce(&mut MagicString) -> Result<&mut MagicString, Refusal>,
) -> Refusal {
  let before = desk.to_string();
  let refusal = edit(desk).map(drop).unwrap_err();
  assert_eq!(desk.to_string(), before);
  refusal
}

/// The same, and that the whole desk and every word of its tables stay.
fn untouched(
  desk: &mut MagicString,
  edit: impl FnOnce(&mut MagicString) -> Result<&mut MagicString, Refusal>,
) -> Refusal {
  let before = desk.clone();
  let refusal = refused(desk, edit);
  assert_eq!(*desk, before);
  assert_eq!(desk.tables(), before.tables());
  refusal
}

fn spans(desk: &MagicString) -> Vec<(u32, u32)> {
  desk.chunks().map(|chunk| (chunk.start(), chunk.end())).collect()
}

#[test]
fn numbers_and_words() {
  for (refusal, number) in Refusal::ALL.into_iter().zip(1..) {
    assert_eq!(refusal.number(), number);
    assert_eq!(Refusal::from_number(number), Some(refusal));
    assert!(!refusal.to_string().is_empty());
  }
  assert_eq!(Refusal::ALL.len(), NUMBERS.len());
  assert_eq!(Refusal::from_number(0), None);
  assert_eq!(Refusal::from_number(22), None);
  let error: &dyn std::error::Error = &Refusal::PastSource;
  assert_eq!(error.to_string(), "end past source");
}

#[test]
fn number_1_text_not_utf8() {
  for source in [&b"\xFF"[..], b"a\xC0\x80", b"\xED\xA0\x80", b"\xE2\x82"] {
    assert_eq!(MagicString::from_utf8(source), Err(Refusal::NotUtf8));
  }
  assert_eq!(MagicString::from_utf8("é").unwrap(), open("é"));
}

#[test]
fn number_2_desk_not_well_formed() {
  let desk = open("abc");
  let (chunks, pieces, store) = desk.tables();
  let made =
    |chunks: &[u32], pieces: &[u32]| MagicString::from_tables("abc", chunks, pieces, store);
  assert_eq!(made(chunks, pieces), Ok(desk.clone()));
  // Two chunks whose links are all zero.
  let mut two = vec![0; layout::CHUNKS_LEN];
  two[layout::START] = 2;
  assert_eq!(made(&two, pieces), Err(Refusal::NotWellFormed));
  // A span that does not cover the source, and a table that is too short.
  let mut short = chunks.to_vec();
  short[layout::ROW + layout::END] = 2;
  assert_eq!(made(&short, pieces), Err(Refusal::NotWellFormed));
  assert_eq!(made(chunks, &pieces[1..]), Err(Refusal::NotWellFormed));
  assert_eq!(
    MagicString::from_tables(b"\xFFbc", chunks, pieces, store),
    Err(Refusal::NotWellFormed)
  );
}

#[test]
fn number_3_position_inside_a_character() {
  let desk = &mut open("é");
  assert_eq!(untouched(desk, |s| s.remove(0, 1)), Refusal::InsideCharacter);
  assert_eq!(untouched(desk, |s| s.remove(1, 1)), Refusal::InsideCharacter);
  assert_eq!(untouched(desk, |s| s.reset(1, 2)), Refusal::InsideCharacter);
  assert_eq!(untouched(desk, |s| s.update(1, 1, "x")), Refusal::InsideCharacter);
  assert_eq!(untouched(desk, |s| s.relocate(0, 2, 1)), Refusal::InsideCharacter);
  for (side, end) in SETTINGS {
    assert_eq!(untouched(desk, |s| s.insert(1, "x", side, end)), Refusal::InsideCharacter);
  }
  let exclude = &[(0, 1)];
  assert_eq!(
    untouched(desk, |s| s.indent_with(IndentOptions { indentor: None, exclude })),
    Refusal::InsideCharacter
  );
  assert_eq!(desk.slice(1, None), Err(Refusal::InsideCharacter));
  assert_eq!(desk.slice(0, Some(1)), Err(Refusal::InsideCharacter));
  // The range report takes any two numbers.
  assert!(!desk.is_range_within_edited_chunk(1, 1));
}

#[test]
fn number_4_end_before_start() {
  let desk = &mut open("abc");
  assert_eq!(untouched(desk, |s| s.remove(2, 1)), Refusal::EndBeforeStart);
  assert_eq!(untouched(desk, |s| s.reset(2, 1)), Refusal::EndBeforeStart);
  assert_eq!(untouched(desk, |s| s.update(2, 1, "x")), Refusal::EndBeforeStart);
  assert_eq!(untouched(desk, |s| s.relocate(2, 1, 0)), Refusal::EndBeforeStart);
}

#[test]
fn number_5_replace_zero_width() {
  assert_eq!(untouched(&mut open("abc"), |s| s.update(1, 1, "x")), Refusal::ZeroWidth);
}

#[test]
fn number_6_cut_inside_a_replacement() {
  let desk = &mut open("abcdef");
  desk.update(0, 4, "X").unwrap();
  for (side, end) in SETTINGS {
    assert_eq!(untouched(desk, |s| s.insert(2, "x", side, end)), Refusal::CutInReplacement);
  }
  // The cuts that were made stay: that at `start`, before the one inside.
  let desk = &mut open("abcdef");
  desk.update(2, 6, "X").unwrap();
  assert_eq!(refused(desk, |s| s.remove(1, 3)), Refusal::CutInReplacement);
  assert_eq!(spans(desk), [(0, 1), (1, 2), (2, 6)]);
  // An empty replacement can be cut.
  let desk = &mut open("abcdef");
  desk.remove(0, 4).unwrap().insert(2, "x", Left, Back).unwrap();
  assert_eq!(desk.to_string(), "xef");
}

#[test]
fn number_7_replace_across_a_moved_edge() {
  // Case E.
  let desk = &mut open("abcd");
  desk.relocate(2, 3, 4).unwrap();
  assert_eq!(refused(desk, |s| s.update(0, 3, "X")), Refusal::AcrossMovedEdge);
  assert_eq!(desk.to_string(), "abdc");
  // Case F: the chunk of b is cleared before the refusal.
  let desk = &mut open("abcd");
  desk.relocate(2, 3, 4).unwrap().insert(1, "", Left, Back).unwrap();
  assert_eq!(desk.update(0, 3, "X").err(), Some(Refusal::AcrossMovedEdge));
  assert_eq!(desk.to_string(), "adc");
}

#[test]
fn number_8_move_into_itself() {
  let desk = &mut open("abc");
  assert_eq!(untouched(desk, |s| s.relocate(1, 1, 1)), Refusal::IntoItself);
  assert_eq!(untouched(desk, |s| s.relocate(0, 2, 1)), Refusal::IntoItself);
  // Case L: another zero width is accepted.
  desk.relocate(1, 1, 2).unwrap();
  assert_eq!(*desk, open("abc"));
}

#[test]
fn number_9_moved_range_not_together() {
  // Cases A and B.
  let desk = &mut open("abc");
  desk.relocate(0, 2, 3).unwrap();
  assert_eq!(desk.to_string(), "cab");
  assert_eq!(refused(desk, |s| s.relocate(1, 3, 0)), Refusal::NotTogether);
  assert_eq!(spans(desk), [(2, 3), (0, 1), (1, 2)]);
}

#[test]
fn number_10_end_past_source() {
  let desk = &mut open("abc");
  assert_eq!(untouched(desk, |s| s.reset(0, 4)), Refusal::PastSource);
  assert_eq!(untouched(desk, |s| s.relocate(1, 4, 0)), Refusal::PastSource);
  // An update's cuts stay.
  assert_eq!(refused(desk, |s| s.update(1, 4, "x")), Refusal::PastSource);
  assert_eq!(spans(desk), [(0, 1), (1, 3)]);
}

#[test]
fn numbers_11_and_12_slice_anchors() {
  // Case D.
  let mut desk = open("abcdef");
  desk.remove(1, 5).unwrap().insert(3, "Z", Left, Back).unwrap();
  assert_eq!(desk.to_string(), "aZf");
  assert_eq!(desk.slice(2, None), Err(Refusal::SliceStart));
  assert_eq!(desk.slice(0, Some(2)), Err(Refusal::SliceEnd));
  assert_eq!(desk.slice(3, None), Ok("f".to_string()));
}

#[test]
fn number_13_limits() {
  // Case K.
  assert!(MagicString::new("a".repeat(layout::SOURCE_BYTES)).is_ok());
  assert_eq!(MagicString::new("a".repeat(layout::SOURCE_BYTES + 1)), Err(Refusal::Limit));

  // Bytes. Those that a replacement frees are used again.
  let desk = &mut open("ab");
  desk.update(0, 2, "x".repeat(layout::STORE_BYTES)).unwrap();
  desk.update(0, 2, "y".repeat(layout::STORE_BYTES)).unwrap();
  assert_eq!(untouched(desk, |s| s.append("z")), Refusal::Limit);
  assert_eq!(untouched(desk, |s| s.prepend("z")), Refusal::Limit);

  // Pieces, empty ones counted.
  let desk = &mut open("ab");
  for _ in 0..layout::PIECES {
    desk.insert(1, "", Right, Back).unwrap();
  }
  assert_eq!(untouched(desk, |s| s.insert(2, "", Left, Back)), Refusal::Limit);

  // Chunks.
  let desk = &mut open(&"a".repeat(1_000));
  for at in 1..layout::CHUNKS as u32 {
    desk.insert(at, "", Left, Back).unwrap();
  }
  assert_eq!(desk.chunks().count(), layout::CHUNKS);
  assert_eq!(untouched(desk, |s| s.remove(600, 700)), Refusal::Limit);
  assert_eq!(untouched(desk, |s| s.relocate(600, 700, 0)), Refusal::Limit);
  assert_eq!(untouched(desk, |s| s.reset(600, 700)), Refusal::Limit);
  assert_eq!(untouched(desk, |s| s.insert(600, "", Right, Front)), Refusal::Limit);
  desk.remove(0, 1).unwrap();

  // A chunk trimmed in part needs bytes.
  let desk = &mut open(&format!("{} ", "a".repeat(10)));
  desk.insert(0, "x".repeat(layout::STORE_BYTES), Right, Back).unwrap();
  assert_eq!(untouched(desk, |s| s.trim_end(None)), Refusal::Limit);
  assert_eq!(untouched(desk, |s| s.indent()), Refusal::Limit);
}

#[test]
fn number_14_output_buffer_too_short() {
  let desk = open("abc");
  let out = &mut [b'-'; 5];
  assert_eq!(desk.write_to(&mut out[..2]), Err(Refusal::ShortBuffer));
  assert_eq!(out, b"-----");
  assert_eq!(desk.write_to(out), Ok(3));
  assert_eq!(out, b"abc--");
}

#[test]
fn number_15_pattern_above_1() {
  let desk = &mut open(" abc ");
  assert_eq!(untouched(desk, |s| s.trim(Some("[ab]"))), Refusal::BadOption);
  assert_eq!(untouched(desk, |s| s.trim_start(Some(""))), Refusal::BadOption);
  assert_eq!(untouched(desk, |s| s.trim_end(Some(" "))), Refusal::BadOption);
}

#[test]
fn number_16_sheet_breaks_its_rules() {
  // No version, another one, and a record of no kind.
  for sheet in [&b""[..], b"\x02\0\0", b"\x01\0\0\0\x01\0"] {
    assert_eq!(MagicString::run_sheet(sheet), Err(Refusal::BadSheet));
  }
  assert_eq!(MagicString::run_sheet(b"\x01\0\0").unwrap().desk, MagicString::default());
}

#[test]
fn number_17_no_such_call() {
  let sitting = &mut Sitting::open("abc").unwrap();
  assert_eq!(sitting.withdraw(0).err(), Some(Refusal::NoSuchCall));
  assert_eq!(sitting.withdraw(1).err(), Some(Refusal::NoSuchCall));
}

#[test]
fn numbers_18_and_19_calls_to_be_joined() {
  let desk = &mut open("aé");
  let remove = |start, end| Call::list(&[Call::Remove { start, end }]).unwrap();
  let (all, half) = (remove(0, 3), remove(0, 2));
  assert_eq!(untouched(desk, |s| s.join(&all, &half)), Refusal::NotApart);
  assert_eq!(untouched(desk, |s| s.join(&half, b"")), Refusal::RefusedAlone);
}

#[test]
fn number_20_frozen() {
  let desk = &mut open(" abc ");
  desk.freeze(2, 3).unwrap();
  assert_eq!(untouched(desk, |s| s.trim(None)), Refusal::Frozen);
  assert_eq!(refused(desk, |s| s.remove(1, 4)), Refusal::Frozen);
  assert_eq!(spans(desk), [(0, 1), (1, 2), (2, 3), (3, 4), (4, 5)]);
}

#[test]
fn number_21_marks_above_100() {
  let sitting = &mut Sitting::open("abc").unwrap();
  assert_eq!(sitting.examiner().set_marks(1, 101).err(), Some(Refusal::NoSuchCall));
  sitting.file(&Call::Remove { start: 0, end: 1 }).unwrap();
  assert_eq!(sitting.examiner().set_marks(1, 101).err(), Some(Refusal::MarksTooHigh));
  assert_eq!(sitting.examiner().total(), 0);
}

#[test]
fn spans_name_their_text() {
  assert_eq!(Span(1, 3).text("abcd"), "bc");
  assert_eq!((Span(1, 3).start(), Span(1, 3).end()), (1, 3));
}
