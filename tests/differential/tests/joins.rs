//! The plain reading of joins gives what is written down here, and the comparison finds no
//! difference where there is none.

use std::time::Duration;

use differential::{
  cores::StandIn,
  joins::{
    Compared, Lists, chosen, compare,
    due::{DUE, PLACES, choices},
    random, reading,
  },
};
use oracle::{
  APPEND_LEFT, APPEND_RIGHT,
  Call::{self, *},
  Desk, Limits, SETTINGS, apply,
};

/// A desk over this source, brought into use by these calls.
fn desk(source: &str, calls: &[Call]) -> Desk {
  let mut desk = Desk::open(Limits::FULL, source.as_bytes()).expect("a source within the limits");
  for call in calls {
    assert_eq!(apply(&mut desk, call).number, 0, "{call}");
  }
  desk
}

/// The number, the value and the text of a join, in both orders of its lists.
fn joined(desk: &Desk, first: &[Call], second: &[Call]) -> (u32, u32, String) {
  let lists = Lists::of(first, second);
  let [one, other] = [lists.clone(), lists.turned()].map(|lists| {
    let mut desk = desk.clone();
    let answer = reading::join(Some(&mut desk), lists.slices());
    (answer.number, answer.value, desk.magic_string().to_string())
  });
  assert_eq!(one, other);
  one
}

fn text(text: &str) -> Vec<u8> {
  text.as_bytes().to_vec()
}

fn left(at: u32, piece: &str) -> Call {
  Insert { at, text: text(piece), setting: APPEND_LEFT }
}

fn right(at: u32, piece: &str) -> Call {
  Insert { at, text: text(piece), setting: APPEND_RIGHT }
}

fn remove(start: u32, end: u32) -> Call {
  Remove { start, end }
}

fn update(start: u32, end: u32, piece: &str) -> Call {
  UpdateWith { start, end, overwrite: 1, text: text(piece) }
}

fn relocate(start: u32, end: u32, to: u32) -> Call {
  Relocate { start, end, to }
}

/// Two lists of a call or more, what they give, and what the desk then shows.
#[test]
fn written_answers_on_a_fresh_desk() {
  let desk = desk("abcdef", &[]);
  let joined = |first: &[Call], second: &[Call]| joined(&desk, first, second);
  let is = |number, value, text: &str| (number, value, text.to_string());
  let refused = |number| is(number, 0, "abcdef");

  // Nothing, and one list alone.
  assert_eq!(joined(&[], &[]), is(0, 0, "abcdef"));
  assert_eq!(joined(&[left(3, "x")], &[]), is(0, 1, "abcxdef"));
  // Both sides of a place: one cut in both lists.
  assert_eq!(joined(&[left(3, "x")], &[right(3, "y")]), is(0, 1, "abcxydef"));
  assert_eq!(joined(&[left(3, "x")], &[left(3, "y")]), refused(18));
  assert_eq!(joined(&[left(3, "x"), left(3, "y")], &[]), refused(18));
  // Head and tail.
  assert_eq!(joined(&[left(0, "h")], &[right(6, "t")]), is(0, 0, "habcdeft"));
  assert_eq!(joined(&[left(0, "h")], &[left(0, "i")]), refused(18));
  assert_eq!(joined(&[right(6, "t")], &[right(6, "u")]), refused(18));
  // Ranges that meet, and that reach a byte in common.
  assert_eq!(joined(&[remove(1, 3)], &[update(3, 5, "X")]), is(0, 3, "aXf"));
  assert_eq!(joined(&[remove(1, 4)], &[update(3, 5, "X")]), refused(18));
  assert_eq!(joined(&[remove(1, 3)], &[left(3, "x")]), refused(18));
  assert_eq!(joined(&[remove(1, 3)], &[right(3, "x")]), is(0, 2, "axdef"));
  // Widths and positions.
  assert_eq!(joined(&[remove(2, 2)], &[]), refused(18));
  assert_eq!(joined(&[Reset { start: 3, end: 2 }], &[]), refused(18));
  assert_eq!(joined(&[update(2, 2, "x")], &[]), refused(18));
  assert_eq!(joined(&[remove(5, 7)], &[]), refused(18));
  assert_eq!(joined(&[right(7, "x")], &[]), refused(18));
  // Moves: two of them, one inside a replaced range, and one beside it.
  assert_eq!(joined(&[relocate(0, 1, 6)], &[]), is(0, 1, "bcdefa"));
  assert_eq!(joined(&[relocate(0, 1, 6)], &[relocate(2, 3, 5)]), refused(18));
  assert_eq!(joined(&[relocate(0, 0, 6)], &[relocate(2, 2, 5)]), refused(18));
  assert_eq!(joined(&[relocate(0, 2, 6)], &[update(1, 3, "")]), refused(18));
  assert_eq!(joined(&[relocate(0, 1, 6)], &[update(1, 3, "X")]), is(0, 2, "Xdefa"));
  // Refused alone.
  assert_eq!(joined(&[relocate(0, 3, 1)], &[]), refused(19));
  assert_eq!(joined(&[relocate(3, 0, 5)], &[]), refused(19));
  assert_eq!(joined(&[], &[left(3, &"x".repeat(32_769))]), refused(19));
  // Each has room, both have none.
  let long = "x".repeat(16_385);
  assert_eq!(joined(&[left(3, &long)], &[left(4, &long)]), refused(13));
}

#[test]
fn written_answers_on_desks_in_use() {
  let in_use = desk("abcé", &[update(1, 3, "XY"), relocate(0, 1, 3)]);
  assert_eq!(in_use.magic_string().to_string(), "XYaé");
  let number = |first: &[Call], second: &[Call]| joined(&in_use, first, second).0;
  assert_eq!(joined(&in_use, &[left(1, "l")], &[right(3, "r")]), (0, 0, "XYalré".to_string()));
  // Inside the replacement, across the moved edge, inside a character.
  assert_eq!(number(&[left(1, "l")], &[right(2, "r")]), 19);
  assert_eq!(number(&[update(0, 3, "l")], &[]), 19);
  assert_eq!(number(&[], &[right(4, "r")]), 19);
  // Alone it cuts the replacement, and behind the other call it would not.
  assert_eq!(number(&[Reset { start: 1, end: 3 }], &[relocate(2, 3, 5)]), 19);
  // A premise that fails comes before a call that is refused alone.
  assert_eq!(number(&[left(2, "l")], &[left(2, "r")]), 18);

  let not_utf8 = Insert { at: 1, text: vec![0xff], setting: SETTINGS[3] };
  assert_eq!(number(&[not_utf8], &[]), 19);
}

/// Over an empty source nothing is joined, and no call is.
#[test]
fn an_empty_source() {
  for desk in [desk("", &[]), desk("", &[left(0, "x")])] {
    assert_eq!(joined(&desk, &[], &[]).0, 18);
    assert_eq!(joined(&desk, &[left(0, "l")], &[right(0, "r")]).0, 18);
  }
}

/// The space that is reckoned, up to the last chunk, piece and byte.
#[test]
fn space_is_reckoned() {
  let source = "ab".repeat(300);
  let apart = |from: u32, count: u32| -> Vec<Call> {
    (from..from + count).map(|place| left(2 * place + 1, "")).collect()
  };
  let fresh = desk(&source, &[]);
  let number = |first: u32, second: u32| joined(&fresh, &apart(0, first), &apart(first, second)).0;
  assert_eq!([number(85, 85), number(170, 0), number(0, 170)], [0; 3]);
  assert_eq!([number(85, 86), number(171, 0), number(0, 171), number(100, 100)], [13; 4]);

  let pieces = vec![left(0, ""); 1_022];
  let full = desk(&source, &pieces);
  assert_eq!(joined(&full, &[left(3, "")], &[left(5, "")]).0, 0);
  assert_eq!(joined(&full, &[left(3, ""), remove(8, 9)], &[left(5, ""), left(7, "")]).0, 13);

  let bytes = desk(&source, &[left(0, &"x".repeat(32_758))]);
  assert_eq!(joined(&bytes, &[left(3, "12345")], &[update(5, 6, "12345")]).0, 0);
  assert_eq!(joined(&bytes, &[left(3, "12345")], &[update(5, 6, "123456")]).0, 13);
}

/// Records alone, no version and no source, and the bounds of each list.
#[test]
fn lists() {
  let source = "ab".repeat(300);
  let number = |first: &[u8], second: &[u8]| {
    let mut desk = desk(&source, &[]);
    reading::join(Some(&mut desk), [first, second]).number
  };
  let list = |calls: &[Call]| Lists::of(calls, &[]).first;
  let good = list(&[left(3, "x")]);
  assert_eq!(number(&good, b""), 0);
  for bad in [&b"\0"[..], b"\0\0", b"\0\x05\x04\0\0\0", b"\x01\0\0", b"\0\x09\x09\0\0\0\0\0\0\0\0"]
  {
    assert_eq!([number(bad, &good), number(&good, bad), number(bad, bad)], [16; 3]);
    assert_eq!(number(&[&good, bad].concat(), b""), 16);
  }

  let many: Vec<Call> = (0..201).map(|place| left(2 * place + 1, "")).collect();
  assert_eq!(number(&list(&many[..200]), &list(&many[200..])), 13);
  assert_eq!(number(&list(&many), b""), 16);
  assert_eq!(number(b"", &list(&many)), 16);

  let of_size = |size: usize| list(&[left(3, &"x".repeat(size - 7))]);
  assert_eq!(number(&of_size(57_344), &of_size(57_344)), 18);
  assert_eq!(number(&of_size(57_344), b""), 19);
  assert_eq!(number(&of_size(57_345), b""), 16);
  assert_eq!(number(b"", &of_size(57_345)), 16);
  assert_eq!(reading::join(None, [b"\0", b""]).number, 2);
}

/// Of several refusals that are due, the first in the order is given.
#[test]
fn refusals_come_in_their_order() {
  for place in PLACES {
    for (choice, pair) in choices(place).iter().enumerate() {
      let due = DUE.iter().enumerate().find(|(bit, _)| choice >> bit & 1 == 1);
      let mut desk = pair.harm.is_none().then(|| pair.desk());
      let answer = reading::join(desk.as_mut(), pair.lists.slices());
      assert_eq!(answer.number, due.map_or(0, |(_, &number)| number), "{pair}");
    }
  }
}

/// The other order of the lists gives the same, by the reading too.
#[test]
fn both_orders_give_the_same() {
  for pair in chosen(1).chain((0..400).map(random)) {
    let mut desks = [pair.desk(), pair.desk()];
    let [one, other] = &mut desks;
    let answer = reading::join(Some(one), pair.lists.slices());
    let turned = reading::join(Some(other), pair.lists.clone().turned().slices());
    assert_eq!(answer, turned, "{pair}");
    assert_eq!(one.data(), other.data(), "{pair}");
  }
}

#[test]
fn no_pair_differs_and_everything_is_met() {
  let Compared { tally, different } = compare(&mut StandIn::new(2), 2, 1_500, Duration::MAX);
  if let Some((pair, found)) = different {
    panic!("{pair}{found}");
  }
  assert_eq!(tally.missing(), Vec::<String>::new());
}
