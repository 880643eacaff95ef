//! What keeps two lists from being joined, in words; and that it is nothing if and only if
//! they are joined, on random desks and lists.

mod joined;
mod one_by_one;
#[path = "../../sheet_script/tests/plain/mod.rs"]
mod plain;
#[path = "../../sheet_script/tests/random/mod.rs"]
mod random;

use std::collections::{BTreeMap, BTreeSet};

use joined::joined;
use magic_string::{
  MagicString, Refusal, SheetRun,
  layout::*,
  premises::{Broken, ListName, Spot, broken},
};
use plain::{Record, Sheet};
use random::Random;
use sheet_script::to_list;

fn open(source: &str) -> MagicString {
  MagicString::new(source).unwrap()
}

/// What is said of two scripts.
fn words(desk: &MagicString, first: &str, second: &str) -> Vec<String> {
  let list = |script: &str| to_list(script.as_bytes()).unwrap();
  let (first, second) = (list(first), list(second));
  assert!(joined(desk, &first, &second).is_err());
  broken(desk, &first, &second).iter().map(Broken::to_string).collect()
}

/// The checks of one call.
#[test]
fn one_call() {
  let desk = &open("abécd");
  assert_eq!(words(&open(""), "", ""), ["check 1: the source is empty"]);
  assert_eq!(
    words(desk, "remove 0 1\nremove 1 1", "reset 2 2"),
    [
      "check 3: call 2 of the first list (remove 1 to 1) is not of a byte or more",
      "check 3: call 1 of the second list (reset 2 to 2) is not of a byte or more",
    ]
  );
  assert_eq!(
    words(desk, "", "remove 5 7\nrelocate 0 1 8"),
    [
      "check 4: position 7 of call 1 of the second list (remove 5 to 7) lies past the source's \
       end, 6",
      "check 4: position 8 of call 2 of the second list (relocate 0 to 1 before 8) lies past \
       the source's end, 6",
    ]
  );
  assert_eq!(
    words(desk, "append_left 3 \"x\"", "prepend_right 1 \"\\xFF\""),
    [
      "check 8: call 1 of the first list (append_left at 3) is refused alone with 3: position \
       inside a character",
      "check 8: call 1 of the second list (prepend_right at 1) is refused alone with 1: text \
       not UTF-8",
    ]
  );
}

/// The checks of two calls, of one list or of both.
#[test]
fn two_calls() {
  let desk = &open("abcdef");
  assert_eq!(
    words(desk, "remove 0 1\nappend_left 3 \"x\"", "update 2 4 \"X\""),
    ["check 5: call 2 of the first list (append_left at 3) and call 1 of the second list \
      (update 2 to 4) reach the same byte, 2"]
  );
  assert_eq!(
    words(desk, "append_left 0 \"x\"\nappend_right 6 \"x\"\nprepend_left 0 \"y\"", ""),
    ["check 5: call 1 of the first list (append_left at 0) and call 3 of the first list \
      (prepend_left at 0) both reach the head"]
  );
  assert_eq!(
    words(desk, "", "append_right 6 \"x\"\nprepend_right 6 \"y\""),
    ["check 5: call 1 of the second list (append_right at 6) and call 2 of the second list \
      (prepend_right at 6) both reach the tail"]
  );
  assert_eq!(
    words(desk, "relocate 0 1 3", "relocate 3 4 0"),
    ["check 6: call 1 of the first list (relocate 0 to 1 before 3) and call 1 of the second \
      list (relocate 3 to 4 before 0) are two moves"]
  );
  // The move may stand before the replacement or behind it.
  let inside = |at, [moved, replaced]: [&str; 2]| {
    format!(
      "check 7: position {at} of call 1 of {moved} (relocate 2 to 5 before 0) lies strictly \
       inside the range that call 1 of {replaced} (update 1 to 6) replaces"
    )
  };
  let (moved, replaced) = ("relocate 2 5 0", "update 1 6 \"\"");
  let lists = ["the first list", "the second list"];
  assert_eq!(words(desk, moved, replaced), [2, 5].map(|at| inside(at, lists)));
  let lists = [lists[1], lists[0]];
  assert_eq!(words(desk, replaced, moved), [2, 5].map(|at| inside(at, lists)));
}

#[test]
fn space() {
  let mut desk = open(&"a".repeat(1_000));
  for at in 1..509 {
    desk.remove(at, at + 1).unwrap();
  }
  let calls = "append_left 990 \"\"\nappend_left 992 \"\"";
  assert_eq!(
    words(&desk, calls, ""),
    ["check 9: the desk's chunks and three for each call are 516, more than 512"]
  );
  let mut desk = open("abc");
  for _ in 0..PIECES - 1 {
    desk.append("").unwrap();
  }
  desk.update(0, 1, "x".repeat(STORE_BYTES - 4)).unwrap();
  assert_eq!(
    words(&desk, "append_left 2 \"xyz\"", "append_left 3 \"é\""),
    [
      "check 9: the desk's pieces and one for each insertion are 1025, more than 1024",
      "check 9: the bytes of the desk's texts and of all texts in the lists are 32769, more \
       than 32768",
    ]
  );
}

/// The smallest lists of docs/ANY-ORDER.md, each of which fails one check alone. Lists have
/// no `append` and no `prepend`: insertions at the two ends stand for them.
#[test]
fn smallest_lists() {
  let mut moved = open("abc");
  moved.relocate(1, 2, 3).unwrap();
  let long = "x".repeat(STORE_BYTES / 2 + 1);
  let (head, tail) = (format!("append_left 0 \"{long}\""), format!("append_right 1 \"{long}\""));
  let lists = [
    (1, open(""), "append_left 0 \"x\"", "append_right 0 \"y\""),
    (3, open("a"), "remove 1 1", "append_left 1 \"x\""),
    (4, open("a"), "append_left 2 \"x\"", "append_left 3 \"y\""),
    (5, open("a"), "append_left 1 \"x\"", "append_left 1 \"y\""),
    (6, open("abc"), "relocate 0 1 3", "relocate 1 2 0"),
    (7, open("ab"), "update 0 2 \"X\"", "relocate 0 1 2"),
    (8, moved, "update 0 2 \"X\"", "relocate 2 3 0"),
    (9, open("a"), &head, &tail),
  ];
  for (check, desk, first, second) in lists {
    let both = format!("{first}\n{second}");
    for (first, second) in [(first, second), (second, first), (&both, ""), ("", &both)] {
      let words = words(&desk, first, second);
      let all = words.iter().all(|words| words.starts_with(&format!("check {check}: ")));
      assert!(all, "{words:?}");
    }
  }
}

/// Nothing else is said of lists that are none, and each of them is named.
#[test]
fn no_lists() {
  let desk = &open("");
  let (right, wrong) = (to_list(b"remove 1 1").unwrap(), &b"\0\x01\x09"[..]);
  let words = |first: &[u8], second: &[u8]| {
    assert_eq!(joined(desk, first, second), Err(Refusal::BadSheet));
    broken(desk, first, second).iter().map(Broken::to_string).collect::<Vec<_>>()
  };
  let first = "the first list breaks the rules: record 1, byte 2: there is no kind 9";
  let second = "the second list breaks the rules: record 2, byte 13: there is no kind 9";
  assert_eq!(words(wrong, &right), [first]);
  assert_eq!(words(&right, &[&right, wrong].concat()), [second]);
  assert_eq!(words(wrong, &[&right, wrong].concat()), [first, second]);
}

/// What is broken can be taken apart, too.
#[test]
fn parts() {
  let list = to_list(b"remove 0 2").unwrap();
  let broken = broken(&open("abc"), &list, &list);
  let [Broken::SameReach { calls: [one, other], spot: Spot::Byte(0) }] = &broken[..] else {
    panic!("{broken:?}")
  };
  assert_eq!((one.list, one.number, &one.record.positions[..]), (ListName::First, 1, &[0, 2][..]));
  assert_eq!((other.list, other.number), (ListName::Second, 1));
  assert_eq!((broken[0].check(), broken[0].refusal()), (Some(5), Refusal::NotApart));
}

/// A desk with edits on it, one of four with little space for texts.
fn desk(random: &mut Random) -> MagicString {
  let sheet = Sheet::any(random, 6);
  let Ok(SheetRun { mut desk, .. }) = MagicString::run_sheet(&sheet.bytes()) else {
    // The source is not UTF-8.
    return self::desk(random);
  };
  if random.below(4) == 0 {
    let text = |used| "x".repeat(STORE_BYTES - used);
    let used = (0..).find(|&used| desk.clone().append(text(used)).is_ok()).unwrap();
    desk.append(text(used + random.below(8))).unwrap();
  }
  desk
}

/// Two lists of calls over this source. Most of the calls reach nothing in common.
fn lists(random: &mut Random, source: &str) -> [Vec<u8>; 2] {
  let mut places: Vec<u32> = source.char_indices().map(|(place, _)| place as u32).collect();
  places.push(source.len() as u32);
  let mut records = Vec::new();
  let mut first = 0;
  while first + 1 < places.len() {
    let last = (first + 1 + random.below(4)).min(places.len() - 1);
    if random.below(2) == 0 {
      records.push(apart(random, places[first], places[last]));
    }
    first = last;
  }
  for _ in 0..[0, 0, 1, 1, 1, 2][random.below(6)] {
    let positions = (0..3).map(|_| places[random.below(places.len())]).collect();
    records.push(Record { kind: 8, positions, text: Vec::new() });
  }
  if random.below(4) == 0 {
    records.push(Record::any(random, source.len()));
  }
  let mut lists = [Vec::new(), Vec::new()];
  for record in &records {
    lists[random.below(2)].extend(record.bytes());
  }
  if random.below(30) == 0 {
    lists[random.below(2)].push(random.below(10) as u8);
  }
  lists
}

/// A call that reaches nothing but bytes of this range.
fn apart(random: &mut Random, start: u32, end: u32) -> Record {
  let kind = 1 + random.below(7) as u8;
  let positions = match kind {
    1..=3 => vec![start, end],
    4 | 6 => vec![end],
    _ => vec![start],
  };
  let text = if matches!(kind, 1 | 3) { "" } else { ["", "x", "é", "xyz"][random.below(4)] };
  Record { kind, positions, text: text.into() }
}

#[test]
fn random_lists() {
  let mut random = Random(1);
  let (mut numbers, mut alone) = (BTreeMap::new(), BTreeMap::new());
  for _ in 0..20_000 {
    let desk = desk(&mut random);
    let [first, second] = lists(&mut random, desk.source());
    let number = joined(&desk, &first, &second).map_or_else(Refusal::number, |_| 0);
    *numbers.entry(number).or_insert(0) += 1;
    // The only check that is broken.
    let checks: BTreeSet<_> =
      broken(&desk, &first, &second).iter().filter_map(Broken::check).collect();
    if let (Some(&check), 1) = (checks.first(), checks.len()) {
      *alone.entry(check).or_insert(0) += 1;
    }
  }
  let all = numbers.keys().copied().eq([0, 13, 16, 18, 19]);
  assert!(all && numbers.values().all(|&pairs| pairs > 100), "{numbers:?}");
  let all = alone.keys().copied().eq([1, 3, 4, 5, 6, 7, 8, 9]);
  assert!(all && alone.values().all(|&pairs| pairs > 20), "{alone:?}");
}
