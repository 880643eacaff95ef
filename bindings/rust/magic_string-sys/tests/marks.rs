//! `set_marks`, `entry`, `marked_entry` and `total` on lent memory; where the types of the
//! crate magic_string rule a case out: memory that is no record, buffers of any length, marks
//! that no examiner wrote, a source that is not looked at.

mod lent;

use lent::*;
use magic_string_sys::{Answer, layout::*, numbers::*};

/// Three filed calls, the second refused, in memory that held this byte.
fn three(byte: u8) -> Lent {
  let mut lent = Lent::open("abcdef", byte);
  assert_eq!(lent.file(&remove(1, 3)), edited(0, 2));
  assert_eq!(lent.file(&remove(5, 4)), edited(END_BEFORE_START, 0));
  assert_eq!(lent.file(&append_left(5, "é".as_bytes())), edited(0, 1));
  lent
}

/// The same with these marks.
fn marked(marks: [u32; 3]) -> Lent {
  let mut lent = three(0xA5);
  for (k, marks) in (1..).zip(marks) {
    assert_eq!(lent.set_marks(k, marks), Answer::ACCEPTED);
  }
  lent
}

/// That a call gives this number, with value 0, and leaves every word and byte as it was.
fn unchanged(lent: &mut Lent, number: u32, call: impl FnOnce(&mut Lent) -> Answer) {
  let before = lent.clone();
  assert_eq!(call(lent), edited(number, 0));
  assert_eq!(*lent, before);
}

type Read = fn(&Lent, u32, &mut [u8]) -> Answer;

/// What a reading writes into a buffer of exactly its length.
fn read(lent: &Lent, reading: Read, k: u32) -> Vec<u8> {
  let mut out = vec![0xA5; RECORD_FRONT + RECORD_TEXT + 2];
  let answer = reading(lent, k, &mut out);
  assert_eq!(answer.number, 0);
  let length = answer.value as usize;
  assert!(out[length..].iter().all(|&byte| byte == 0xA5));
  let mut exact = vec![0; length];
  assert_eq!(reading(lent, k, &mut exact), answer);
  assert_eq!(exact, out[..length]);
  // One byte less is too short, and nothing is written.
  let mut short = vec![0xA5; length - 1];
  assert_eq!(reading(lent, k, &mut short), edited(SHORT_BUFFER, 0));
  assert_eq!(short, vec![0xA5; length - 1]);
  exact
}

/// 0 on filing, whatever lay there; one byte is written.
#[test]
fn marks_are_written() {
  let mut lent = three(0xA5);
  assert_eq!((lent.marks(3), lent.total()), (&[0; 3][..], edited(0, 0)));
  for (k, marks) in [(1, 100), (3, 7), (2, 1), (3, 0), (1, 99)] {
    let mut expected = lent.clone();
    expected.bytes[RECORD_MARKS + k as usize - 1] = marks as u8;
    assert_eq!(lent.set_marks(k, marks), Answer::ACCEPTED);
    assert_eq!(lent, expected);
  }
  assert_eq!((lent.marks(3), lent.total()), (&[99, 1, 0][..], edited(0, 100)));
}

/// 17 before 21; nothing changes.
#[test]
fn numbers() {
  let lent = &mut marked([1, 2, 3]);
  for k in [0, 4, RECORD_CALLS as u32, u32::MAX] {
    for marks in [0, 101] {
      unchanged(lent, NO_SUCH_CALL, |lent| lent.set_marks(k, marks));
    }
    for reading in [Lent::entry as Read, Lent::marked_entry] {
      // 17 before 14.
      unchanged(lent, NO_SUCH_CALL, |lent| reading(lent, k, &mut []));
    }
  }
  for marks in [101, 255, 256, 256 + 50, 0x8000_0000, u32::MAX] {
    unchanged(lent, MARKS_TOO_HIGH, |lent| lent.set_marks(2, marks));
  }
  assert_eq!(lent.set_marks(2, HIGHEST_MARKS), Answer::ACCEPTED);
}

/// The call as it was filed and its answer, and for the examiner the marks.
#[test]
fn readings() {
  let lent = marked([100, 0, 42]);
  let calls = [remove(1, 3), remove(5, 4), append_left(5, "é".as_bytes())];
  for (k, ((call, answer), marks)) in (1..).zip(calls.iter().zip([0, 4, 0]).zip([100, 0, 42])) {
    let member = [&call[..], &[answer]].concat();
    assert_eq!(read(&lent, Lent::entry, k), member);
    assert_eq!(read(&lent, Lent::marked_entry, k), [&member[..], &[marks]].concat());
  }
}

/// Any bytes that may stand in a record are read: a text that is not UTF-8, any answer, the
/// longest text, the last call of 200.
#[test]
fn any_entries() {
  let mut lent = Lent::open("abc", 0);
  for call in [append_left(1, b"\xFF\0"), call(2, &[0, 3], &[b'x'; RECORD_TEXT])] {
    lent.put(&call);
    (lent.bytes[RECORD_ANSWERS], lent.bytes[RECORD_MARKS]) = (0xEE, 55);
    assert_eq!(read(&lent, Lent::entry, 1), [&call[..], &[0xEE]].concat());
    assert_eq!(read(&lent, Lent::marked_entry, 1), [&call[..], &[0xEE, 55]].concat());
  }
  let last = RECORD_CALLS as u32;
  lent.put(&remove(0, 0).repeat(RECORD_CALLS));
  lent.bytes[RECORD_MARKS..KEPT_STORE].fill(100);
  assert_eq!(lent.total(), edited(0, 20_000));
  assert_eq!(lent.set_marks(last, 1), Answer::ACCEPTED);
  assert_eq!(read(&lent, Lent::marked_entry, last), [remove(0, 0), vec![0, 1]].concat());
  assert_eq!(lent.total(), edited(0, 19_901));
}

/// A withdrawn call takes its marks with it; those of the others stay with their calls,
/// whatever these answer then.
#[test]
fn withdrawals() {
  for (k, left) in [(1, [20, 30]), (2, [10, 30]), (3, [10, 20])] {
    let mut lent = marked([10, 20, 30]);
    assert_eq!(lent.withdraw(k), Answer::ACCEPTED);
    assert_eq!(
      (lent.marks(2), lent.total()),
      (&left.map(|marks| marks as u8)[..], edited(0, left.iter().sum()))
    );
    // The next call has none, whatever lay there.
    lent.bytes[RECORD_MARKS + 2] = 0xFF;
    lent.file(&remove(0, 1));
    assert_eq!(lent.marks(3)[2], 0);
    for left in (0..3).rev() {
      assert_eq!(lent.withdraw(1), Answer::ACCEPTED);
      assert_eq!(lent.withdraw(left + 1), edited(NO_SUCH_CALL, 0));
    }
    assert_eq!(lent.total(), edited(0, 0));
  }
}

/// Marks above 100 among the filed calls make a record ill formed, those behind do not.
#[test]
fn higher_marks() {
  for marks in [101, 128, 255] {
    for k in 0..3 {
      let mut lent = marked([100; 3]);
      lent.bytes[RECORD_MARKS + k] = marks;
      lent.all_refused();
    }
    let mut lent = marked([100; 3]);
    lent.bytes[RECORD_MARKS + 3..KEPT_STORE].fill(marks);
    assert_eq!(lent.total(), edited(0, 300));
    assert_eq!(lent.withdraw(2), Answer::ACCEPTED);
    assert_eq!(lent.total(), edited(0, 200));
  }
}

/// These calls take no tables: 2 is the record's alone, its kept desk judged if there are
/// calls. Of a record without, neither that nor the source is looked at.
#[test]
fn which_2() {
  let mut lent = marked([1, 2, 3]);
  lent.chunks.fill(0);
  lent.tables_refused();
  assert_eq!(lent.total(), edited(0, 6));
  assert_eq!(lent.set_marks(1, 4), Answer::ACCEPTED);
  assert_eq!(read(&lent, Lent::entry, 2), [remove(5, 4), vec![4]].concat());

  for source in [&b""[..], b"abcdefg", b"abcde\xFF"] {
    let mut lent = lent.clone();
    lent.source = source.to_vec();
    lent.record_refused();
    lent.words[RECORD_USED] = 0;
    assert_eq!(lent.total(), edited(0, 0));
    unchanged(&mut lent, NO_SUCH_CALL, |lent| lent.set_marks(1, 0));
    unchanged(&mut lent, NO_SUCH_CALL, |lent| lent.entry(1, &mut [0; 20]));
  }
  lent.words[KEPT_CHUNKS + START] = 0;
  lent.record_refused();
}

/// What a member sees of each call: its answer, the bytes of its buffer, and the text.
fn seen(lent: &mut Lent) -> Vec<(Answer, Vec<u8>, String)> {
  let mut seen = Vec::new();
  let mut call = |lent: &mut Lent, call: &dyn Fn(&mut Lent, &mut [u8]) -> Answer| {
    let mut out = vec![0; 40];
    let answer = call(lent, &mut out);
    seen.push((answer, out, lent.text()));
  };
  for k in 0..5 {
    call(lent, &|lent, out| lent.entry(k, out));
    call(lent, &|lent, out| lent.entry(k, &mut out[..11]));
  }
  call(lent, &|lent, _| lent.freeze(0, 1));
  call(lent, &|lent, _| lent.file(&remove(0, 2)));
  call(lent, &|lent, _| lent.file(b"\0"));
  call(lent, &|lent, _| lent.remove(4, 6));
  call(lent, &|lent, _| lent.withdraw(1));
  call(lent, &|lent, out| lent.entry(3, out));
  call(lent, &|lent, _| lent.open_anew());
  call(lent, &|lent, out| lent.entry(2, out));
  for _ in 0..4 {
    call(lent, &|lent, _| lent.withdraw(1));
  }
  call(lent, &|lent, _| lent.freeze(0, 1));
  seen
}

/// The member's calls give the same whatever the marks are.
#[test]
fn the_member_learns_nothing() {
  let without = seen(&mut three(0));
  assert!(without.iter().any(|(answer, ..)| answer.number == NO_SUCH_CALL));
  for marks in [[0, 0, 1], [100, 100, 100], [3, 99, 0]] {
    assert_eq!(seen(&mut marked(marks)), without);
  }
}
