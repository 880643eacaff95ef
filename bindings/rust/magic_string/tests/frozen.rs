//! Frozen chunks through the wrapper: what freezing marks, which edits it refuses and in
//! which place, and what stays under all others. tests/sitting.rs has freezing beside a
//! record, magic_string-sys/tests/freeze.rs what the wrapper's types rule out.

use magic_string::{
  Call, Chunk, End::*, IndentOptions, MagicString, Refusal, Side::*, UpdateOptions, premises,
};

fn open(source: &str) -> MagicString {
  MagicString::new(source).unwrap()
}

/// The spans of the frozen chunks, in list order.
fn frozen(desk: &MagicString) -> Vec<(u32, u32)> {
  let frozen = desk.chunks().filter(|chunk| chunk.frozen);
  frozen.map(|chunk| (chunk.start(), chunk.end())).collect()
}

/// What each byte of the frozen chunks is shown by: the replacement of its chunk, or itself.
fn shown(desk: &MagicString) -> Vec<(u32, Option<String>)> {
  let mut shown: Vec<_> = desk.chunks().filter(|chunk| chunk.frozen).flat_map(bytes).collect();
  shown.sort();
  shown
}

fn bytes(chunk: Chunk) -> Vec<(u32, Option<String>)> {
  let text = chunk.edited_content.map(str::to_string);
  (chunk.start()..chunk.end()).map(|at| (at, text.clone())).collect()
}

type Edit = fn(&mut MagicString) -> Result<&mut MagicString, Refusal>;

/// An edit's refusal and its cuts.
fn refused(desk: &mut MagicString, edit: Edit) -> (Refusal, usize) {
  let refusal = edit(desk).map(drop).unwrap_err();
  (refusal, desk.cuts())
}

#[test]
fn what_is_marked() {
  let desk = &mut open("abcdefgh");
  assert_eq!(desk.freeze(2, 6).unwrap().cuts(), 2);
  assert_eq!(frozen(desk), [(2, 6)]);
  // A cut gives the mark to both halves; a range that is frozen already is frozen again.
  assert_eq!(desk.insert(4, "|", Left, Back).unwrap().cuts(), 1);
  assert_eq!(desk.freeze(3, 5).unwrap().freeze(0, 0).unwrap().cuts(), 0);
  assert_eq!(frozen(desk), [(2, 3), (3, 4), (4, 5), (5, 6)]);
  assert_eq!(desk.to_string(), "abcd|efgh");
  desk.freeze(0, 8).unwrap();
  assert_eq!(frozen(desk).len(), desk.chunks().count());
}

/// Reset's numbers, up to the cuts.
#[test]
fn refusals_of_freezing() {
  let desk = &mut open("éabcdef");
  desk.update(4, 6, "X").unwrap();
  assert_eq!(refused(desk, |s| s.freeze(1, 1)), (Refusal::InsideCharacter, 0));
  assert_eq!(refused(desk, |s| s.freeze(9, 8)), (Refusal::EndBeforeStart, 0));
  assert_eq!(refused(desk, |s| s.freeze(2, 9)), (Refusal::PastSource, 0));
  assert_eq!(refused(desk, |s| s.freeze(3, 5)), (Refusal::CutInReplacement, 1));
  assert_eq!(frozen(desk), []);
  assert_eq!(desk.freeze(9, 9).map(drop), Ok(()));
}

/// 20 comes behind the cuts, which stay; in an update behind 10 and before 7.
#[test]
fn ranges_with_a_frozen_chunk() {
  let mut desk = open("abcdefgh");
  desk.freeze(3, 5).unwrap();
  let before = desk.to_string();
  for edit in [(|s| s.remove(1, 7)) as Edit, |s| s.update(1, 7, "X"), |s| s.reset(1, 7)] {
    let desk = &mut desk.clone();
    assert_eq!(refused(desk, edit), (Refusal::Frozen, 2));
    assert_eq!(refused(desk, edit), (Refusal::Frozen, 0));
    assert_eq!((desk.to_string(), desk.chunks().count()), (before.clone(), 5));
  }
  let desk = &mut desk;
  assert_eq!(refused(desk, |s| s.update(4, 9, "X")), (Refusal::PastSource, 1));
  assert_eq!(refused(desk, |s| s.remove(4, 9)), (Refusal::Frozen, 0));
  assert_eq!(refused(desk, |s| s.reset(4, 9)), (Refusal::PastSource, 0));
  assert_eq!(refused(desk, |s| s.update(4, 4, "X")), (Refusal::ZeroWidth, 0));
  assert_eq!(refused(desk, |s| s.remove(5, 3)), (Refusal::EndBeforeStart, 0));
  // Beside the frozen chunk nothing is refused.
  desk.remove(0, 3).unwrap().update(5, 8, "X").unwrap().reset(0, 2).unwrap();
  assert_eq!(desk.to_string(), "abdeX");

  let desk = &mut open("abcd");
  desk.freeze(0, 1).unwrap().relocate(2, 3, 4).unwrap();
  assert_eq!(refused(desk, |s| s.update(0, 3, "X")), (Refusal::Frozen, 0));
  assert_eq!(refused(desk, |s| s.update(1, 3, "X")), (Refusal::AcrossMovedEdge, 0));
}

/// The one chunk of an empty source starts at 0.
#[test]
fn an_empty_source() {
  let desk = &mut MagicString::default();
  assert_eq!(desk.freeze(0, 0).map(drop), Ok(()));
  assert_eq!(refused(desk, |s| s.freeze(0, 1)), (Refusal::PastSource, 0));
  assert_eq!(frozen(desk), []);
}

/// Trims and indents are refused wherever the frozen chunk stands, and change nothing.
#[test]
fn desks_with_a_frozen_chunk() {
  let desk = &mut open("  ab  ");
  desk.freeze(2, 3).unwrap();
  let before = desk.clone();
  let edits = [
    (|s| s.trim(None)) as Edit,
    |s| s.trim_start(None),
    |s| s.trim_end(None),
    |s| s.trim_lines(),
    |s| s.indent(),
    |s| s.indent_with(IndentOptions { indentor: Some(""), exclude: &[] }),
  ];
  for edit in edits {
    assert_eq!(refused(desk, edit), (Refusal::Frozen, 0));
    assert_eq!(desk.tables(), before.tables());
  }
  assert_eq!(refused(desk, |s| s.trim(Some("x"))), (Refusal::BadOption, 0));
}

/// What is frozen stays, under every edit that is accepted and every refusal.
#[test]
fn what_is_frozen_stays() {
  let mut desk = open("abcdefghij");
  desk.update(2, 4, "XY").unwrap().remove(6, 7).unwrap().freeze(2, 8).unwrap();
  let edits = [
    (|s| s.insert(5, "!", Left, Back)) as Edit,
    |s| s.insert(2, "<", Right, Front),
    |s| s.relocate(4, 6, 10),
    |s| s.relocate(0, 2, 9),
    |s| s.update_with(0, 2, "A", UpdateOptions { overwrite: true }),
    |s| s.update(1, 9, "B"),
    |s| s.remove(0, 99),
    |s| s.reset(3, 10),
    |s| s.remove(8, 10),
    |s| s.prepend("(").and_then(|s| s.append(")")),
    |s| s.trim(None),
    |s| s.freeze(0, 1),
  ];
  let before = shown(&desk);
  assert_eq!(before.len(), 6);
  for edit in edits {
    drop(edit(&mut desk));
    assert!(before.iter().all(|byte| shown(&desk).contains(byte)), "{desk:?}");
  }
}

/// A call on a frozen range is refused alone, so that lists with it do not join.
#[test]
fn lists_to_be_joined() {
  let mut desk = open("abcdef");
  desk.freeze(2, 4).unwrap();
  let list = |calls: &[Call]| Call::list(calls).unwrap();
  let frozen = list(&[Call::Remove { start: 1, end: 3 }]);
  let free = list(&[
    Call::Relocate { start: 2, end: 4, to: 0 },
    Call::Insert { at: 4, text: "!", side: Left, end: Back },
  ]);
  assert_eq!(desk.clone().join(&free, &frozen).err(), Some(Refusal::RefusedAlone));
  let broken = premises::broken(&desk, &free, &frozen);
  assert_eq!(
    broken.iter().map(|broken| broken.to_string()).collect::<Vec<_>>(),
    ["check 8: call 1 of the second list (remove 1 to 3) is refused alone with 20: a frozen \
      chunk, or freezing with calls already filed"]
  );
  let removal = list(&[Call::Remove { start: 0, end: 2 }]);
  for (first, second) in [(&free, &removal), (&removal, &free)] {
    let mut desk = desk.clone();
    assert_eq!(premises::broken(&desk, first, second), []);
    assert_eq!(desk.join(first, second).unwrap().to_string(), "cd!ef");
    assert_eq!(self::frozen(&desk), [(2, 4)]);
  }
}
