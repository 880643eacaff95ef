//! Two lists joined through the wrapper: what a join leaves, each number that it has here,
//! their order, and the limits. Every join is held to its calls made one by one and to
//! `premises::broken`. magic_string-sys/tests/join.rs has what the wrapper's types rule out.

mod joined;
mod one_by_one;

use joined::joined;
use magic_string::{
  Call::{self, *},
  End::*,
  MagicString, Refusal,
  Side::*,
  layout::*,
  premises::{Broken, broken},
};
use sheet_script::to_list;

fn open(source: &str) -> MagicString {
  MagicString::new(source).unwrap()
}

/// The list of a script.
fn list(script: &str) -> Vec<u8> {
  to_list(script.as_bytes()).unwrap()
}

/// What a join of two scripts leaves.
fn join(desk: &MagicString, first: &str, second: &str) -> Result<MagicString, Refusal> {
  joined(desk, &list(first), &list(second))
}

/// The refusal that two scripts get.
fn refused(desk: &MagicString, first: &str, second: &str) -> Refusal {
  join(desk, first, second).unwrap_err()
}

#[test]
fn two_lists() {
  let first = "update 0 4 \"Gale\"\nappend_left 14 \" to 15\"\nprepend_left 0 \"CQ \"";
  let second = "relocate 10 20 5\nremove 10 12\nappend_right 20 \" ??\"";
  let mut desk = join(&open("Wind north, 12 knots"), first, second).unwrap();
  assert_eq!(desk.to_string(), "CQ Gale 12 to 15 knotsnorth ??");
  assert_eq!(desk.cuts(), 5);
  // Later calls find a desk like any other, and count their own cuts.
  assert_eq!(desk.reset(11, 12).unwrap().cuts(), 1);
}

/// All kinds, with insertions at both ends of the lists on both sides of one position.
#[test]
fn every_kind() {
  let first = "remove 1 2\nupdate 2 4 \"é\"\nappend_left 5 \"a\"\nprepend_right 5 \"b\"";
  let second = "reset 6 7\nprepend_left 8 \"c\"\nappend_right 8 \"d\"\nrelocate 0 2 4";
  let mut desk = open("0123456789");
  desk.insert(7, "gone", Left, Back).unwrap();
  assert_eq!(join(&desk, first, second).unwrap().to_string(), "é04ab567cd89");
}

#[test]
fn empty_lists() {
  let mut desk = open("abc");
  desk.remove(1, 2).unwrap();
  let before = desk.clone();
  assert_eq!(desk.join(b"", b"").unwrap().cuts(), 0);
  assert_eq!(desk.tables(), before.tables());
  // One of the two.
  assert_eq!(join(&desk, "remove 0 1", "").unwrap().to_string(), "c");
  assert_eq!(join(&desk, "", "remove 0 1").unwrap().to_string(), "c");
  assert_eq!(refused(&MagicString::default(), "", ""), Refusal::NotApart);
}

#[test]
fn lists_that_break_the_rules() {
  let (desk, right) = (open("abc"), list("remove 0 1"));
  let broken: [&[u8]; 8] = [
    b"\0",
    b"\0\0",
    b"\0\x01\0",
    b"\0\x01\x09",
    b"\0\x08\x01\0\0\0\0\0\0\0",
    b"\0\x0A\x01\0\0\0\0\0\0\0\x01\0",
    b"\0\x05\x04\0\0\0",
    // A version and a source, as a sheet has.
    b"\x01\0\0",
  ];
  for list in broken {
    let behind = [&right[..], list].concat();
    for (first, second) in [(list, &right[..]), (&right, list), (&behind, b""), (list, list)] {
      assert_eq!(joined(&desk, first, second), Err(Refusal::BadSheet), "{first:?} {second:?}");
    }
  }
}

/// Each list has its own 200 records and 57,344 bytes.
#[test]
fn the_largest_lists() {
  let desk = open("abc");
  let calls = |count| list("remove 0 1").repeat(count);
  let (most, more) = (calls(SHEET_RECORDS), calls(SHEET_RECORDS + 1));
  assert_eq!(joined(&desk, &most, b""), Err(Refusal::NotApart));
  assert_eq!(desk.clone().join(&most, &most).err(), Some(Refusal::NotApart));
  assert_eq!(joined(&desk, &more, b""), Err(Refusal::BadSheet));
  assert_eq!(joined(&desk, b"", &more), Err(Refusal::BadSheet));

  let text =
    |length| Insert { at: 0, text: &"x".repeat(length), side: Left, end: Back }.to_string();
  let longest = list(&text(SHEET_BYTES - 7));
  let longer = [&b"\xDF\xFF\x04\0\0\0\0"[..], &longest[7..], b"x"].concat();
  assert_eq!((longest.len(), longer.len()), (SHEET_BYTES, SHEET_BYTES + 1));
  // Longer than the store, the text is refused alone.
  assert_eq!(joined(&desk, &longest, b""), Err(Refusal::RefusedAlone));
  assert_eq!(joined(&desk, b"", &longest), Err(Refusal::RefusedAlone));
  assert_eq!(joined(&desk, &longer, b""), Err(Refusal::BadSheet));
  assert_eq!(joined(&desk, b"", &longer), Err(Refusal::BadSheet));
  assert_eq!(joined(&desk, &longest, &longest), Err(Refusal::NotApart));
}

/// Each ground for 18.
#[test]
fn calls_that_are_not_apart() {
  let desk = open("abcdef");
  let pairs = [
    // Width.
    ("remove 1 1", ""),
    ("", "reset 6 6"),
    ("update 2 2 \"X\"", ""),
    ("remove 3 1", ""),
    // Positions.
    ("remove 5 7", ""),
    ("append_left 7 \"x\"", ""),
    ("", "relocate 0 1 7"),
    // Reach.
    ("remove 1 3", "reset 2 4"),
    ("update 1 3 \"X\"", "append_left 3 \"x\""),
    ("append_right 2 \"x\"", "remove 2 3"),
    ("append_left 3 \"x\"", "prepend_right 2 \"y\""),
    ("append_left 0 \"x\"", "prepend_left 0 \"y\""),
    ("append_right 6 \"x\"\nappend_right 6 \"y\"", ""),
    // Moves.
    ("relocate 0 1 3", "relocate 3 4 0"),
    ("relocate 1 1 3", "relocate 3 3 0"),
    ("update 1 4 \"X\"", "relocate 2 5 6"),
    ("update 1 4 \"\"", "relocate 4 5 3"),
  ];
  for (first, second) in pairs {
    assert_eq!(refused(&desk, first, second), Refusal::NotApart, "{first}, {second}");
    assert_eq!(refused(&desk, second, first), Refusal::NotApart, "{second}, {first}");
  }
  // What just misses each of them.
  let second = "reset 4 5\nappend_right 5 \"<\"\nprepend_left 0 \"(\"\nprepend_right 6 \")\"";
  let joined = join(&desk, "update 1 3 \"X\"\nappend_left 4 \">\"\nrelocate 1 3 6", second);
  assert_eq!(joined.unwrap().to_string(), "(ad>e<fX)");
}

/// Each number that a call can have alone.
#[test]
fn calls_that_are_refused_alone() {
  let mut desk = open("aébcdefgh");
  desk.update(4, 7, "X").unwrap().relocate(9, 10, 0).unwrap();
  let calls = [
    (1, "append_left 1 \"\\xFF\""),
    (3, "append_left 2 \"x\""),
    (4, "relocate 4 3 0"),
    (6, "append_left 5 \"x\""),
    (7, "update 8 10 \"Y\""),
    (8, "relocate 1 4 3"),
    (9, "relocate 8 10 1"),
  ];
  for (number, script) in calls {
    let list = list(script);
    let [Broken::RefusedAlone { refusal, .. }] = broken(&desk, b"", &list)[..] else {
      panic!("{script}")
    };
    assert_eq!(refusal.number(), number, "{script}");
    assert_eq!(refused(&desk, script, ""), Refusal::RefusedAlone, "{script}");
    assert_eq!(refused(&desk, "append_left 0 \"x\"", script), Refusal::RefusedAlone, "{script}");
  }
  // A text that is too long alone is no want of space.
  let long = format!("append_left 0 \"{}\"", "x".repeat(STORE_BYTES));
  assert_eq!(refused(&desk, &long, ""), Refusal::RefusedAlone);
}

/// 16, 18, 19, 13, each with what stands behind it.
#[test]
fn the_order_of_the_numbers() {
  let desk = open("aé");
  let half = format!("append_left 0 \"{}\"\n", "x".repeat(STORE_BYTES / 2));
  let other = format!("append_right 3 \"{}\"\n", "x".repeat(STORE_BYTES / 2 + 1));
  assert_eq!(refused(&desk, &half, &other), Refusal::Limit);
  let alone = other.clone() + "append_left 2 \"x\"\n";
  assert_eq!(refused(&desk, &half, &alone), Refusal::RefusedAlone);
  let apart = alone + "remove 1 1\n";
  assert_eq!(refused(&desk, &half, &apart), Refusal::NotApart);
  let bad = [&list(&apart)[..], b"\0"].concat();
  assert_eq!(joined(&desk, &list(&half), &bad), Err(Refusal::BadSheet));
}

/// Three chunks are reckoned for each call, whatever it cuts.
#[test]
fn space_for_chunks() {
  let desk = open(&"a".repeat(2 * CHUNKS));
  let lists = |calls: usize| {
    let call = |at| Insert { at: at as u32, text: "", side: Left, end: Back };
    let calls: Vec<Call> = (1..=calls).map(call).collect();
    let (first, second) = calls.split_at(calls.len() / 2);
    [Call::list(first).unwrap(), Call::list(second).unwrap()]
  };
  let join = |desk: &MagicString, calls| {
    let [first, second] = lists(calls);
    joined(desk, &first, &second)
  };
  let most = (CHUNKS - 1) / 3;
  assert_eq!(join(&desk, most).unwrap().cuts(), most);
  assert_eq!(join(&desk, most + 1), Err(Refusal::Limit));
  // One chunk more just fits, and another one does not.
  let mut desk = desk;
  desk.insert(1_000, "", Left, Back).unwrap();
  assert_eq!(desk.chunks().count() + 3 * most, CHUNKS);
  assert!(join(&desk, most).is_ok());
  desk.insert(1_001, "", Left, Back).unwrap();
  assert_eq!(join(&desk, most), Err(Refusal::Limit));
  assert!(join(&desk, most - 1).is_ok());
}

#[test]
fn space_for_pieces() {
  let mut desk = open("abcdef");
  for _ in 0..PIECES - 2 {
    desk.append("").unwrap();
  }
  let two = ["append_left 2 \"\"", "append_left 3 \"\"\nremove 5 6"];
  assert!(join(&desk, two[0], two[1]).is_ok());
  assert_eq!(refused(&desk, two[0], &format!("{}\nappend_right 4 \"\"", two[1])), Refusal::Limit);
  // Those that a removal takes away are counted.
  desk.insert(6, "", Left, Back).unwrap();
  assert_eq!(refused(&desk, two[0], two[1]), Refusal::Limit);
}

#[test]
fn space_for_bytes() {
  let mut desk = open("abcdef");
  desk.update(0, 1, "x".repeat(STORE_BYTES - 4)).unwrap();
  assert!(join(&desk, "append_left 2 \"xy\"", "update 3 4 \"é\"").is_ok());
  assert_eq!(refused(&desk, "append_left 2 \"xy\"", "update 3 4 \"é!\""), Refusal::Limit);
  // The text that a replacement takes the place of is counted.
  assert_eq!(refused(&desk, "update 0 1 \"12345\"", ""), Refusal::Limit);
}

#[test]
fn lists_of_calls() {
  let (at, text, end) = (3, "\"", Front);
  let calls = [Remove { start: 0, end: 1 }, Insert { at, text, side: Right, end }];
  let script: String = calls.iter().map(|call| format!("{call}\n")).collect();
  assert_eq!(Call::list(&calls).unwrap(), list(&script));
  assert_eq!(Call::list(&[]).unwrap(), b"");
  // The length of a record has 16 bits.
  let replace = |length| Call::list(&[Update { start: 0, end: 1, text: &"x".repeat(length) }]);
  assert!(replace(65_526).is_some());
  assert_eq!(replace(65_527), None);
}
