//! `file` and `withdraw` on lent memory, where the types of the crate magic_string rule a
//! case out: memory that is no record, bytes that are no call, texts that are not UTF-8,
//! edits that are not filed, a record beside another source; and which bytes of a record
//! are written.

mod lent;

use lent::*;
use magic_string_sys::{Answer, layout::*, numbers::*};

impl Lent {
  /// That filing gives this number, and leaves every word and byte as it was.
  fn not_filed(&self, number: u32, call: &[u8]) {
    let mut lent = self.clone();
    assert_eq!(lent.file(call), edited(number, 0), "{call:?}");
    assert_eq!(lent, *self);
  }
}

/// 0 in its first word makes a record empty, whatever else it holds.
#[test]
fn empty_records() {
  for byte in [0, 1, 0xFF] {
    let mut lent = Lent::open("abc", byte);
    assert_eq!(lent.withdraw(1), edited(NO_SUCH_CALL, 0));
    assert_eq!(lent.file(&remove(1, 2)), edited(0, 2));
    assert_eq!((lent.used(), lent.answers(1)), (&remove(1, 2)[..], &[0][..]));
    assert_eq!(lent.withdraw(1), Answer::ACCEPTED);
    assert_eq!((lent.words[RECORD_USED], lent.text()), (0, "abc".to_string()));
  }
}

/// One word and 35,968 bytes were a record before it kept a desk, 68,736 bytes one before it
/// had marks.
#[test]
fn other_lengths() {
  let lent = Lent::open("abc", 0);
  let resized = |change: &dyn Fn(&mut Lent)| {
    let mut lent = lent.clone();
    change(&mut lent);
    lent.all_refused();
  };
  // The tables of the desk, which the calls on entries do not take.
  let no_desk = |change: &dyn Fn(&mut Lent)| {
    let mut lent = lent.clone();
    change(&mut lent);
    lent.tables_refused();
    assert_eq!(lent.total(), Answer::ACCEPTED);
  };
  for length in [0, 1, KEPT_PIECES, RECORD_WORDS_LEN - 1, RECORD_WORDS_LEN + 1] {
    resized(&|lent| lent.words.resize(length, 0));
  }
  let before = RECORD_BYTES_LEN - RECORD_CALLS;
  assert_eq!((RECORD_MARKS, before), (35_968, 68_736));
  let lengths = [0, RECORD_ANSWERS, RECORD_MARKS, KEPT_STORE, before];
  for length in lengths.into_iter().chain([RECORD_BYTES_LEN - 1, RECORD_BYTES_LEN + 1]) {
    resized(&|lent| lent.bytes.resize(length, 0));
  }
  resized(&|lent| {
    lent.words.truncate(1);
    lent.bytes.truncate(RECORD_MARKS);
  });
  no_desk(&|lent| lent.chunks.truncate(CHUNKS_LEN - ROW));
  no_desk(&|lent| lent.pieces.truncate(PIECES_LEN - PIECE));
  no_desk(&|lent| lent.store.truncate(STORE_LEN - 1));
  // A desk that is not well formed over this source.
  no_desk(&|lent| lent.source.push(b'd'));
}

/// Bytes that are no calls of a record.
#[test]
fn records_that_are_not_well_formed() {
  let mut lent = Lent::open("abc", 0);
  let full = remove(0, 0).repeat(RECORD_CALLS);
  let longest = append_left(0, &[b'x'; RECORD_TEXT]);
  for calls in [full.clone(), longest.clone()] {
    lent.put(&calls);
    assert_eq!(lent.clone().withdraw(1), Answer::ACCEPTED);
    assert_eq!(lent.withdraw(RECORD_CALLS as u32 + 1), edited(NO_SUCH_CALL, 0));
  }
  let broken = [
    b"\0".to_vec(),
    b"\0\0".to_vec(),
    b"\0\x05\x04\0\0\0".to_vec(),
    call(0, &[0, 0], b""),
    call(9, &[0, 0], b""),
    call(1, &[0, 0], b"x"),
    call(2, &[0], b""),
    call(8, &[0, 0], b""),
    [&remove(0, 0), &b"\0"[..]].concat(),
    [full, remove(0, 0)].concat(),
    append_left(0, &[b'x'; RECORD_TEXT + 1]),
    [longest, append_left(0, b"x")].concat(),
  ];
  for calls in broken {
    lent.put(&calls);
    lent.all_refused();
  }
  for used in [RECORD_ANSWERS as u32 + 1, RECORD_BYTES_LEN as u32 + 1, u32::MAX] {
    lent.words[RECORD_USED] = used;
    lent.all_refused();
  }
}

/// 16 for bytes that are not exactly one record, before the record's 13.
#[test]
fn calls_that_break_the_rules() {
  let lent = Lent::open("abc", 0);
  let mut full = lent.clone();
  full.put(&remove(0, 0).repeat(RECORD_CALLS));
  let two = [remove(0, 1), remove(0, 1)].concat();
  let update = call(2, &[0, 1], b"");
  let broken = [
    Vec::new(),
    b"\0".to_vec(),
    b"\0\0".to_vec(),
    b"\0\x01\0".to_vec(),
    two,
    remove(0, 1)[1..].to_vec(),
    remove(0, 1)[..10].to_vec(),
    [&remove(0, 1), &b"\0"[..]].concat(),
    [&update, &b"x"[..]].concat(),
    update[..10].to_vec(),
    call(0, &[0, 1], b""),
    call(9, &[0, 1], b""),
    call(3, &[0, 1, 2], b""),
    call(8, &[0, 1], b""),
    append_left(0, b"")[2..].to_vec(),
  ];
  for call in broken {
    lent.not_filed(BAD_SHEET, &call);
    full.not_filed(BAD_SHEET, &call);
  }
}

/// The record's 13 comes before what the call itself would give: 1 or 4. Where there is
/// room, these are filed.
#[test]
fn limits_before_the_call() {
  let wrong = [append_left(0, b"\xFF"), remove(2, 1)];
  let mut full = Lent::open("abc", 0);
  full.put(&remove(0, 0).repeat(RECORD_CALLS));
  let mut long = Lent::open("abc", 0);
  long.put(&append_left(0, &[b'x'; RECORD_TEXT]));
  for call in &wrong {
    full.not_filed(LIMIT, call);
  }
  long.not_filed(LIMIT, &wrong[0]);
  // As long as a record can be: longer than a sheet.
  Lent::open("abc", 0).not_filed(LIMIT, &append_left(0, &[0xFF; 65_530]));

  let mut lent = Lent::open("abc", 0);
  assert_eq!(lent.file(&wrong[0]), edited(NOT_UTF8, 0));
  assert_eq!(lent.file(&wrong[1]), edited(END_BEFORE_START, 0));
  assert_eq!(lent.file(&append_left(1, b"!")), edited(0, 1));
  assert_eq!(lent.used(), [&wrong.concat()[..], &append_left(1, b"!")].concat());
  assert_eq!(lent.answers(3), [1, 4, 0]);
  // A text that is not UTF-8 is no fault of the record.
  assert_eq!(lent.withdraw(2), Answer::ACCEPTED);
  assert_eq!((lent.answers(2), lent.text()), (&[1, 0][..], "a!bc".to_string()));
}

/// After the record's 13 its first word is as it was, after the desk's it has grown.
#[test]
fn the_word_tells_the_two_13_apart() {
  let mut lent = Lent::open("abc", 0);
  lent.put(&append_left(0, &[b'x'; RECORD_TEXT - 1]));
  // The record was not made by these calls: the desk is fresh. Its store is filled beside
  // the record.
  let text = [b'y'; STORE_BYTES];
  assert_eq!(lent.append(&text), Answer::ACCEPTED);
  let before = lent.words[RECORD_USED];
  lent.not_filed(LIMIT, &append_left(0, b"zz"));
  assert_eq!(lent.file(&append_left(0, b"z")), edited(LIMIT, 0));
  assert_eq!(lent.words[RECORD_USED], before + 8);
  assert_eq!(lent.answers(2)[1], 13);
}

/// Filing writes the call, its answer, no marks and the first word; the first call the kept
/// desk too, and a later one nothing else. What other answers are is not looked at.
#[test]
fn what_filing_writes() {
  let mut lent = Lent::open("abcdef", 0xA5);
  let calls = [remove(1, 3), append_left(5, b"!"), remove(9, 8)];
  for (filed, (call, answer)) in calls.iter().zip([0, 0, 4]).enumerate() {
    let mut expected = lent.clone();
    let used = lent.used().len();
    expected.bytes[used..][..call.len()].copy_from_slice(call);
    expected.bytes[RECORD_ANSWERS + filed] = answer;
    expected.bytes[RECORD_MARKS + filed] = 0;
    assert_eq!(lent.file(call).number, answer.into());
    assert_eq!(lent.used().len(), used + call.len());
    let compared = if filed == 0 { KEPT_STORE } else { RECORD_BYTES_LEN };
    assert_eq!(lent.bytes[..compared], expected.bytes[..compared]);
    if filed > 0 {
      assert_eq!(lent.words[KEPT_CHUNKS..], expected.words[KEPT_CHUNKS..]);
    }
    // A wrong answer stays.
    lent.bytes[RECORD_ANSWERS + filed] = 0xEE;
  }
}

/// A withdrawal leaves what lay behind the calls, the answers and the marks, and the kept
/// desk.
#[test]
fn what_withdrawing_leaves() {
  let calls = [remove(1, 3), append_left(5, b"!"), remove(4, 2)];
  for k in 1..=3 {
    let mut lent = Lent::open("abcdef", 0xA5);
    for call in &calls {
      lent.file(call);
    }
    let (used, words, before) = (lent.used().len(), lent.words.clone(), lent.bytes.clone());
    assert_eq!(lent.withdraw(k), Answer::ACCEPTED);
    assert_eq!(lent.words[KEPT_CHUNKS..], words[KEPT_CHUNKS..]);
    let mut left = calls.to_vec();
    left.remove(k as usize - 1);
    assert_eq!(lent.used(), left.concat());
    assert_eq!(lent.bytes[used..RECORD_ANSWERS], before[used..RECORD_ANSWERS]);
    let answers = RECORD_ANSWERS + 3..RECORD_MARKS;
    assert_eq!(lent.bytes[answers.clone()], before[answers]);
    assert_eq!(lent.bytes[RECORD_MARKS + 3..], before[RECORD_MARKS + 3..]);
  }
}

#[test]
fn no_such_call() {
  let mut lent = Lent::open("abc", 0);
  for _ in 0..2 {
    lent.file(&remove(0, 1));
  }
  let before = lent.clone();
  for k in [0, 3, RECORD_CALLS as u32, u32::MAX] {
    assert_eq!(lent.withdraw(k), edited(NO_SUCH_CALL, 0));
    assert_eq!(lent, before);
  }
}

/// A withdrawal loses what was edited without filing since the first call was filed, and
/// makes the filed calls anew on the kept desk; opening anew leaves the record.
#[test]
fn edits_that_are_not_filed() {
  let mut lent = Lent::open("abcdef", 0);
  assert_eq!(lent.file(&append_left(1, b"1")), edited(0, 1));
  assert_eq!(lent.remove(4, 6), edited(0, 1));
  assert_eq!(lent.file(&append_left(3, b"2")), edited(0, 1));
  assert_eq!(lent.text(), "a1bc2d");
  assert_eq!(lent.withdraw(1), Answer::ACCEPTED);
  assert_eq!(lent.text(), "abc2def");

  let record = (lent.words.clone(), lent.bytes.clone());
  assert_eq!(lent.open_anew(), Answer::ACCEPTED);
  assert_eq!((&lent.words, &lent.bytes), (&record.0, &record.1));
  assert_eq!(lent.text(), "abcdef");
  // The desk and its record are together again behind the next withdrawal.
  assert_eq!(lent.file(&append_left(5, b"3")), edited(0, 1));
  assert_eq!(lent.text(), "abcde3f");
  assert_eq!(lent.file(&remove(5, 6)), edited(0, 0));
  assert_eq!(lent.withdraw(3), Answer::ACCEPTED);
  assert_eq!(lent.text(), "abc2de3f");
}

/// What was edited before the first call is filed is kept, and only that.
#[test]
fn edits_before_the_first_call() {
  let mut lent = Lent::open("abcdef", 0xA5);
  assert_eq!(lent.remove(4, 6), edited(0, 1));
  assert_eq!(lent.append(b"!"), Answer::ACCEPTED);
  for _ in 0..2 {
    assert_eq!(lent.file(&append_left(1, b"1")), edited(0, 1));
    assert_eq!(lent.kept().text(), "abcd!");
    assert_eq!(lent.append(b"lost"), Answer::ACCEPTED);
    assert_eq!(lent.file(&append_left(3, b"2")), edited(0, 1));
    assert_eq!(lent.text(), "a1bc2d!lost");
    assert_eq!(lent.withdraw(1), Answer::ACCEPTED);
    assert_eq!(lent.text(), "abc2d!");
    assert_eq!(lent.withdraw(1), Answer::ACCEPTED);
    assert_eq!((lent.words[RECORD_USED], lent.text()), (0, "abcd!".to_string()));
  }
  // Without calls the next first one keeps the desk anew.
  assert_eq!(lent.append(b"?"), Answer::ACCEPTED);
  assert_eq!(lent.file(&remove(2, 1)), edited(END_BEFORE_START, 0));
  assert_eq!((lent.kept().text(), lent.text()), ("abcd!?".to_string(), "abcd!?".to_string()));
}

/// The kept desk is looked at if calls are filed, over the source that is lent.
#[test]
fn kept_desks_that_are_not_well_formed() {
  let mut lent = Lent::open("abc", 0);
  lent.file(&remove(0, 1));
  let damaged = |change: &dyn Fn(&mut Lent)| {
    let mut lent = lent.clone();
    change(&mut lent);
    lent.all_refused();
    // Of a record without calls it is not.
    lent.words[RECORD_USED] = 0;
    assert_eq!(lent.withdraw(1), edited(NO_SUCH_CALL, 0));
    assert_eq!(lent.file(&remove(0, 1)).number, 0);
  };
  damaged(&|lent| lent.words[KEPT_CHUNKS + START] = 0);
  damaged(&|lent| lent.words[KEPT_CHUNKS + START] = 2);
  damaged(&|lent| lent.words[KEPT_CHUNKS + ROW + END] = 2);
  damaged(&|lent| lent.words[KEPT_CHUNKS..].fill(0));
  // The head is one piece, whose text lies outside the store, and one that is not UTF-8.
  damaged(&|lent| {
    lent.words[KEPT_CHUNKS + INTRO_AT..][..2].copy_from_slice(&[0, 1]);
    lent.words[KEPT_PIECES..][..PIECE].copy_from_slice(&[STORE_LEN as u32, 1]);
  });
  damaged(&|lent| {
    lent.words[KEPT_CHUNKS + INTRO_AT..][..2].copy_from_slice(&[0, 1]);
    lent.words[KEPT_PIECES..][..PIECE].copy_from_slice(&[0, 1]);
    lent.bytes[KEPT_STORE] = 0xFF;
  });
}

/// Opened with another source, a record with calls is none where the kept desk is no desk
/// over that source.
#[test]
fn another_source() {
  let mut lent = Lent::open("abc", 0);
  lent.file(&remove(0, 1));
  for source in ["abcd", "ab", ""] {
    lent.source = source.into();
    assert_eq!(lent.open_anew(), Answer::ACCEPTED);
    lent.all_refused();
  }
  // One of the same length, with boundaries where the spans end, is no less a desk.
  lent.source = "xyz".into();
  assert_eq!(lent.open_anew(), Answer::ACCEPTED);
  assert_eq!(lent.withdraw(1), Answer::ACCEPTED);
  assert_eq!(lent.text(), "xyz");
  // To begin anew.
  lent.file(&remove(0, 1));
  lent.source = "abcd".into();
  assert_eq!(lent.open_anew(), Answer::ACCEPTED);
  lent.words[RECORD_USED] = 0;
  assert_eq!(lent.file(&remove(3, 4)), edited(0, 1));
}
