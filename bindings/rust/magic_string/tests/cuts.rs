//! What `cuts` tells of the last edit, accepted or refused.

use magic_string::{
  End::*, IndentOptions, MagicString, Refusal, Side::*, UpdateOptions, layout::*,
};

fn open(source: &str) -> MagicString {
  MagicString::new(source).unwrap()
}

/// The cuts of an accepted edit, which are as many as chunks have come in.
fn cuts(
  desk: &mut MagicString,
  edit: impl FnOnce(&mut MagicString) -> Result<&mut MagicString, Refusal>,
) -> usize {
  let before = desk.chunks().count();
  let cuts = edit(desk).unwrap().cuts();
  assert_eq!((desk.cuts(), desk.chunks().count()), (cuts, before + cuts));
  cuts
}

/// The refusal that an edit gets, and the cuts that remain.
fn refused(
  desk: &mut MagicString,
  edit: impl FnOnce(&mut MagicString) -> Result<&mut MagicString, Refusal>,
) -> (Refusal, usize) {
  let before = desk.chunks().count();
  let refusal = edit(desk).map(drop).unwrap_err();
  assert_eq!(desk.chunks().count(), before + desk.cuts());
  (refusal, desk.cuts())
}

#[test]
fn none_before_the_first_edit() {
  let mut desk = open("abc");
  assert_eq!((desk.cuts(), MagicString::default().cuts()), (0, 0));
  assert_eq!(cuts(&mut desk, |s| s.remove(1, 2)), 2);
  let (chunks, pieces, store) = desk.tables();
  assert_eq!(MagicString::from_tables("abc", chunks, pieces, store).unwrap().cuts(), 0);
  // The version, the source "abc", and one record: relocate(0, 2, 3).
  let run = MagicString::run_sheet(b"\x01\0\x03abc\0\x0D\x08\0\0\0\0\0\0\0\x02\0\0\0\x03").unwrap();
  assert_eq!((run.desk.cuts(), run.desk.chunks().count()), (0, 2));
}

/// Made inside a chunk, an emptied one too; not at an edge, nor at an end of the source
/// and past it.
#[test]
fn of_insertions() {
  for (side, end) in [(Left, Front), (Left, Back), (Right, Front), (Right, Back)] {
    let desk = &mut open("abcdef");
    assert_eq!(cuts(desk, |s| s.insert(2, "x", side, end)), 1);
    assert_eq!(cuts(desk, |s| s.insert(2, "x", side, end)), 0);
    for at in [0, 6, 7, u32::MAX] {
      assert_eq!(cuts(desk, |s| s.insert(at, "x", side, end)), 0);
    }
    desk.remove(2, 6).unwrap();
    assert_eq!(cuts(desk, |s| s.insert(4, "x", side, end)), 1);
    assert_eq!(cuts(&mut open(""), |s| s.insert(0, "x", side, end)), 0);
  }
}

#[test]
fn of_ranges() {
  let desk = &mut open("abcdefgh");
  assert_eq!(cuts(desk, |s| s.remove(1, 3)), 2);
  assert_eq!(cuts(desk, |s| s.update(3, 5, "X")), 1);
  let overwrite = UpdateOptions { overwrite: true };
  assert_eq!(cuts(desk, |s| s.update_with(5, 8, "Y", overwrite)), 0);
  assert_eq!(cuts(desk, |s| s.reset(0, 8)), 0);
  assert_eq!(cuts(desk, |s| s.reset(2, 4)), 2);
  // Zero width does nothing, and an end past the source is no cut.
  assert_eq!(cuts(desk, |s| s.remove(7, 7)), 0);
  assert_eq!(cuts(desk, |s| s.remove(7, 9)), 1);
}

#[test]
fn of_moves() {
  assert_eq!(cuts(&mut open("abcdef"), |s| s.relocate(1, 2, 4)), 3);
  assert_eq!(cuts(&mut open("abcdef"), |s| s.relocate(1, 2, 6)), 2);
  let desk = &mut open("abcdef");
  assert_eq!(cuts(desk, |s| s.relocate(0, 2, 9)), 1);
  // An edge between chunks that do not stand together.
  assert_eq!(cuts(desk, |s| s.relocate(2, 6, 0)), 0);
}

/// One for each line that begins inside a chunk without a replacement.
#[test]
fn of_indents() {
  let desk = &mut open("a\nb\nc\nd\n");
  desk.insert(2, "", Left, Back).unwrap().update(4, 5, "X\nY").unwrap();
  assert_eq!(cuts(desk, |s| s.indent()), 1);
  assert_eq!(desk.to_string(), "\ta\n\tb\n\tX\n\tY\n\td\n");
  assert_eq!(cuts(desk, |s| s.indent()), 0);
  let options = IndentOptions { indentor: Some("> "), exclude: &[(2, 4)] };
  assert_eq!(cuts(&mut open("a\nb\nc\nd"), |s| s.indent_with(options)), 2);
}

type Edit = fn(&mut MagicString) -> Result<&mut MagicString, Refusal>;

#[test]
fn of_edits_that_do_not_cut() {
  let edits: [Edit; 6] = [
    |s| s.append(" "),
    |s| s.prepend("\n"),
    |s| s.trim(None),
    |s| s.trim_start(None),
    |s| s.trim_end(None),
    |s| s.trim_lines(),
  ];
  for edit in edits {
    let desk = &mut open(" \nabc \n");
    assert_eq!(cuts(desk, |s| s.remove(3, 4)), 2);
    assert_eq!(cuts(desk, edit), 0);
  }
}

#[test]
fn behind_6() {
  let replaced = || {
    let mut desk = open("abcdefgh");
    desk.update(2, 6, "X").unwrap();
    desk
  };
  let six = |cuts| (Refusal::CutInReplacement, cuts);
  assert_eq!(refused(&mut replaced(), |s| s.remove(1, 4)), six(1));
  assert_eq!(refused(&mut replaced(), |s| s.update(1, 4, "Y")), six(1));
  assert_eq!(refused(&mut replaced(), |s| s.reset(1, 4)), six(1));
  assert_eq!(refused(&mut replaced(), |s| s.relocate(1, 7, 4)), (Refusal::IntoItself, 0));
  assert_eq!(refused(&mut replaced(), |s| s.relocate(6, 7, 4)), six(1));
  assert_eq!(refused(&mut replaced(), |s| s.insert(4, "Y", Left, Back)), six(0));
  // The same call again finds the edge.
  let desk = &mut replaced();
  assert_eq!(refused(desk, |s| s.remove(1, 4)), six(1));
  assert_eq!(refused(desk, |s| s.remove(1, 4)), six(0));
}

#[test]
fn behind_7_9_and_10() {
  let moved = || {
    let mut desk = open("abcdefgh");
    desk.relocate(2, 4, 8).unwrap();
    desk
  };
  assert_eq!(refused(&mut moved(), |s| s.update(1, 3, "X")), (Refusal::AcrossMovedEdge, 2));
  assert_eq!(refused(&mut moved(), |s| s.relocate(1, 3, 6)), (Refusal::NotTogether, 3));
  assert_eq!(refused(&mut moved(), |s| s.update(7, 9, "X")), (Refusal::PastSource, 1));
  // These two refuse before their cuts.
  assert_eq!(refused(&mut moved(), |s| s.reset(7, 9)), (Refusal::PastSource, 0));
  assert_eq!(refused(&mut moved(), |s| s.relocate(7, 9, 0)), (Refusal::PastSource, 0));
}

/// Cuts that 13 takes back do not count.
#[test]
fn behind_13() {
  let long = "x".repeat(STORE_BYTES + 1);
  let limit = (Refusal::Limit, 0);
  let desk = &mut open("abcdef");
  assert_eq!(refused(desk, |s| s.insert(3, &long, Right, Back)), limit);
  assert_eq!(refused(desk, |s| s.update(1, 3, &long)), limit);

  let desk = &mut open(&"a\nb".repeat(300));
  for at in 1..CHUNKS as u32 {
    assert_eq!(cuts(desk, |s| s.insert(at, "", Left, Back)), 1);
  }
  assert_eq!(refused(desk, |s| s.remove(600, 700)), limit);
  assert_eq!(refused(desk, |s| s.relocate(600, 700, 800)), limit);
  // In place of an update's 10.
  assert_eq!(refused(desk, |s| s.update(600, 901, "")), limit);
  assert_eq!(refused(desk, |s| s.indent()), limit);
}

#[test]
fn behind_refusals_that_come_before_the_cuts() {
  let desk = &mut open("ab é");
  assert_eq!(cuts(desk, |s| s.remove(1, 2)), 2);
  assert_eq!(refused(desk, |s| s.remove(3, 4)), (Refusal::InsideCharacter, 0));
  assert_eq!(cuts(desk, |s| s.remove(3, 5)), 1);
  assert_eq!(refused(desk, |s| s.remove(3, 1)), (Refusal::EndBeforeStart, 0));
  assert_eq!(refused(desk, |s| s.update(3, 3, "")), (Refusal::ZeroWidth, 0));
  assert_eq!(refused(desk, |s| s.trim(Some("[ab]"))), (Refusal::BadOption, 0));
}

#[test]
fn reports_leave_them() {
  let mut desk = open("abcdef");
  desk.update(2, 4, "X").unwrap();
  assert_eq!(desk.slice(3, None), Err(Refusal::SliceStart));
  assert_eq!(desk.write_to(&mut [0; 1]), Err(Refusal::ShortBuffer));
  assert_eq!((desk.to_string(), desk.line_count(), desk.cuts()), ("abXef".into(), 1, 2));
  let mut other = desk.clone();
  assert_eq!(other.cuts(), 2);
  // A clone has its own from then on, and equal desks may have other ones.
  assert_eq!(cuts(&mut other, |s| s.reset(0, 6)), 0);
  assert_eq!(cuts(&mut other, |s| s.update(2, 4, "X")), 0);
  assert_eq!((desk.cuts(), other == desk), (2, true));
}
