//! Short tests of the library itself. Built with debug assertions, so the
//! Rust's own are on here.

use oracle::{
  Answer, Call, Cut, Desk, Limits, SETTINGS, Script, apply, check, cuts::cuts, generate::generate,
  keeps, number::*, parse,
};

/// The answers that the lines of a script get, on a desk with these limits.
fn answers(limits: Limits, script: &str) -> Vec<Answer> {
  let mut desk = Desk::open(limits, b"").unwrap();
  let calls = script.lines().filter_map(|line| parse(line).unwrap());
  calls.map(|call| apply(&mut desk, &call)).collect()
}

/// Their numbers.
fn numbers(limits: Limits, script: &str) -> Vec<u32> {
  answers(limits, script).iter().map(|answer| answer.number).collect()
}

#[test]
fn printed_calls_are_read_back() {
  for call in generate(5, 3_000) {
    assert_eq!(parse(&call.to_string()), Ok(Some(call)));
  }
}

#[test]
fn lines_that_are_no_calls() {
  for line in ["", "  ", "# remove 0 1", "#"] {
    assert_eq!(parse(line), Ok(None));
  }
  for line in ["remove 0", "remove 0 1 2", "len 1", "open 6", "open FF", "cut 1", "trim -1"] {
    assert!(parse(line).is_err(), "{line}");
  }
}

#[test]
fn a_seed_gives_one_script() {
  assert_eq!(generate(7, 500), generate(7, 500));
  assert_ne!(generate(7, 500), generate(8, 500));
}

#[test]
fn random_calls_hold() {
  let mut script = Script::new(Limits::FULL);
  for call in generate(6, 3_000) {
    check::call(&mut script, &call).unwrap();
  }
}

/// The Rust's function of each name adds to the list that the switches say, at the end
/// that they say.
#[test]
fn settings_by_their_names() {
  for setting in SETTINGS {
    let mut desk = Desk::open(Limits::FULL, b"ab").unwrap();
    for line in ["append_left 1 6c", "append_right 1 72", &format!("{} 1 78", setting.name())] {
      apply(&mut desk, &parse(line).unwrap().unwrap());
    }
    let [left, right] = &desk.data().chunks[..] else { panic!("one cut") };
    let (list, there) = if setting.left { (&left.outro, "l") } else { (&right.intro, "r") };
    let expected = if setting.front { ["x", there] } else { [there, "x"] };
    assert_eq!(list[..], expected, "{}", setting.name());
  }
}

/// Every move of "abc" with positions from 0 to the length plus 1.
#[test]
fn moves_of_abc() {
  let mut met = [0; 16];
  for place in 0..125 {
    let mut desk = Desk::open(Limits::FULL, b"abc").unwrap();
    let (start, end, to) = (place / 25, place / 5 % 5, place % 5);
    met[apply(&mut desk, &Call::Relocate { start, end, to }).number as usize] += 1;
  }
  assert_eq!(met, [34, 0, 0, 0, 50, 0, 0, 0, 35, 0, 6, 0, 0, 0, 0, 0]);
}

/// Document 02's L3, on every text of up to seven bytes `a`, line feed and carriage
/// return: the lines are those of `str::lines`.
#[test]
fn lines_are_those_of_str() {
  let mut texts = vec![String::new()];
  for len in 0..=7 {
    for text in &texts {
      let mut desk = Desk::open(Limits::FULL, text.as_bytes()).unwrap();
      let lines = Answer::value(text.lines().count() as u32);
      assert_eq!(apply(&mut desk, &Call::LineCount), lines, "{text:?}");
    }
    assert_eq!(texts.len(), 3_usize.pow(len));
    let longer = |text: &String| ["a", "\n", "\r"].map(|last| text.clone() + last);
    texts = texts.iter().flat_map(longer).collect();
  }
}

/// 13 is judged on the desk that would be left, whatever the call's own answer.
#[test]
fn limits_are_judged_on_what_is_left() {
  let two_chunks = Limits { chunks: 2, ..Limits::FULL };
  // Two cuts leave three chunks; one cut or none leaves two.
  assert_eq!(numbers(two_chunks, "open 616263\nremove 1 2\nremove 1 3\nreset 2 3"), [0, 13, 0, 13]);
  // In place of 6 the cut that would stay is one too many; an insertion made none.
  let replaced = "open 6162636465\nupdate_with 2 5 0 58\nremove 1 3\nappend_left 3 -";
  assert_eq!(numbers(two_chunks, replaced), [0, 0, 13, 6]);
  // In place of 10, and of 9.
  assert_eq!(numbers(two_chunks, "open 616263\nremove 1 3\nupdate_with 2 4 0 -"), [0, 0, 13]);
  assert_eq!(numbers(two_chunks, "open 616263\nrelocate 0 2 3\nrelocate 1 3 0"), [0, 0, 13]);

  let few = Limits { pieces: 1, bytes: 4, ..Limits::FULL };
  // A refusal that leaves a long text out is that refusal.
  assert_eq!(numbers(few, "open 6162\nupdate_with 1 1 0 5858585858"), [0, 5]);
  assert_eq!(numbers(few, "open 6162\nupdate_with 0 3 0 5858585858"), [0, 10]);
  // Freed bytes are used again, and an empty piece counts.
  let again = "open 6162\nupdate_with 0 2 0 58585858\nupdate_with 0 2 0 59595959\nappend 61";
  assert_eq!(numbers(few, again), [0, 0, 0, 13]);
  assert_eq!(numbers(few, "open 6162\nappend -\nappend -"), [0, 0, 13]);
  // `trim` fits where `trim_start` alone does not.
  assert_eq!(numbers(few, "open 206120202020\ntrim_start 0\ntrim 0"), [0, 13, 0]);
}

/// 13 takes back the cuts that its call made, whatever the call's own answer.
#[test]
fn a_limit_takes_cuts_back() {
  let two_chunks = Limits { chunks: 2, ..Limits::FULL };
  for (script, number, cuts) in [
    ("open 616263\nremove 1 2", ACCEPTED, 2),
    ("open 616263\nrelocate 1 2 0", ACCEPTED, 2),
    ("open 61620a63\nremove 3 4\nindent_with 78\nindent_with 78", ACCEPTED, 0),
    ("open 610a620a63\nindent_with 78", ACCEPTED, 2),
    ("open 6162636465\nupdate_with 2 5 0 58\nremove 1 3", CUT_IN_REPLACEMENT, 1),
    ("open 61626364\nrelocate 0 2 4\nupdate_with 1 3 0 58", ACROSS_MOVED_EDGE, 2),
    ("open 616263\nrelocate 0 2 3\nrelocate 1 3 0", NOT_TOGETHER, 1),
    ("open 616263\nremove 1 3\nupdate_with 2 4 0 -", PAST_SOURCE, 1),
  ] {
    let last = |limits| answers(limits, script).pop();
    assert_eq!(last(Limits::FULL), Some(Answer::edit(number, cuts)), "{script}");
    let taken_back = if cuts > 0 { Answer::number(LIMIT) } else { Answer::edit(number, 0) };
    assert_eq!(last(two_chunks), Some(taken_back), "{script}");
  }
}

/// Document 02's L4: what each cut of a call does, up to a refused one.
#[test]
fn what_each_cut_does() {
  use Cut::*;
  // "a", "Xyz" for "bcd", and "e\nf\ng".
  let mut desk = Desk::open(Limits::FULL, b"abcde\nf\ng").unwrap();
  apply(&mut desk, &parse("update_with 1 4 0 58797a").unwrap().unwrap());
  let of = |line: &str| cuts(&desk.data(), &parse(line).unwrap().unwrap());
  assert_eq!(of("relocate 5 9 1"), [Made, Outside, Edge]);
  assert_eq!(of("relocate 5 6 8"), [Made, Made, Made]);
  assert_eq!(of("relocate 5 2 6"), [Made, Refused]);
  assert_eq!(of("remove 0 3"), [Outside, Refused]);
  assert_eq!(of("append_left 2 -"), [Refused]);
  assert_eq!(of("append_left 10 -"), [Outside]);
  assert_eq!(of("indent_with none"), [Outside, Made, Made]);
  assert_eq!(of("indent_with none 0 1 6 7"), [Made]);
  for line in ["append -", "prepend -", "trim 0", "trim_lines", "slice 0 5", "len"] {
    assert_eq!(of(line), [], "{line}");
  }
  // An emptied chunk can be cut.
  apply(&mut desk, &parse("remove 1 4").unwrap().unwrap());
  assert_eq!(cuts(&desk.data(), &parse("reset 2 4").unwrap().unwrap()), [Made, Edge]);
}

/// docs/ANY-ORDER.md: both edits cut at 1, and the one that comes first makes the edge.
#[test]
fn cuts_in_two_orders() {
  let (left, right) = ("append_left 1 78", "append_right 1 79");
  let run = |first, second| {
    let mut desk = Desk::open(Limits::FULL, b"ab").unwrap();
    let answers = [first, second].map(|line| apply(&mut desk, &parse(line).unwrap().unwrap()));
    assert_eq!(desk.magic_string().to_string(), "axyb");
    (answers, desk.data())
  };
  let cuts = [Answer::edit(ACCEPTED, 1), Answer::edit(ACCEPTED, 0)];
  assert_eq!(run(left, right).0, cuts);
  assert_eq!(run(right, left).0, cuts);
  assert_eq!(run(left, right).1, run(right, left).1);
}

/// After which refusals the tables may hold another desk, or the same elsewhere: the
/// header's sentences.
#[test]
fn what_stays_after_a_refusal() {
  let after = |line: &str| -> Vec<u32> {
    let call = parse(line).unwrap().unwrap();
    (NOT_UTF8..=FROZEN).filter(|&number| !keeps::every_byte(&call, number)).collect()
  };
  assert_eq!(after("remove 0 1"), [CUT_IN_REPLACEMENT, FROZEN]);
  assert_eq!(after("reset 0 1"), [CUT_IN_REPLACEMENT, FROZEN]);
  let update = [CUT_IN_REPLACEMENT, ACROSS_MOVED_EDGE, PAST_SOURCE, FROZEN];
  assert_eq!(after("update_with 0 1 0 -"), update);
  assert_eq!(after("relocate 0 1 2"), [CUT_IN_REPLACEMENT, NOT_TOGETHER]);
  assert_eq!(after("freeze 0 1"), [CUT_IN_REPLACEMENT]);
  for line in ["append_left 1 -", "prepend_right 1 -", "append -", "trim 0", "indent_with none"] {
    assert_eq!(after(line), [0; 0], "{line}");
  }
  for line in ["slice 0 none", "to_string", "last_char"] {
    assert_eq!(after(line), [0; 0], "{line}");
  }
}
