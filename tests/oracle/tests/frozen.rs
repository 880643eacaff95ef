//! Document 02's L8 around the Rust: what is written down here comes out, and what holds of
//! every step holds with freezes between random calls.

use oracle::{
  Answer, Call, ChunkData, Desk, DeskData, Limits, Script, apply, check, generate::generate, parse,
};

/// A desk over this source, behind the calls of the lines, each with its number and its cuts.
fn desk(source: &str, lines: &[(&str, u32, usize)]) -> Desk {
  let mut desk = Desk::open(Limits::FULL, source.as_bytes()).unwrap();
  for &(line, number, cuts) in lines {
    assert_eq!(made(&mut desk, line), Answer::edit(number, cuts), "{line}");
  }
  desk
}

fn made(desk: &mut Desk, line: &str) -> Answer {
  apply(desk, &parse(line).unwrap().unwrap())
}

/// The spans in list order, those of marked chunks in brackets.
fn spans(desk: &Desk) -> String {
  let chunks = desk.data().chunks;
  let span = |chunk: &ChunkData| match (chunk.start, chunk.end) {
    (start, end) if chunk.frozen => format!("[{start} {end}]"),
    (start, end) => format!("{start} {end}"),
  };
  chunks.iter().map(span).collect::<Vec<_>>().join(", ")
}

/// Reset's rules and order up to its cuts, and the mark on the chunks between them.
#[test]
fn freezing() {
  let mut desk = desk("abcdé", &[("freeze 1 3", 0, 2), ("freeze 2 2", 0, 0), ("freeze 3 1", 4, 0)]);
  assert_eq!(spans(&desk), "0 1, [1 3], 3 6");
  // Inside a character; past the end; a frozen range again, and one in part.
  for (line, number, cuts) in
    [("freeze 0 5", 3, 0), ("freeze 0 7", 10, 0), ("freeze 1 3", 0, 0), ("freeze 2 4", 0, 2)]
  {
    assert_eq!(made(&mut desk, line), Answer::edit(number, cuts), "{line}");
  }
  assert_eq!(spans(&desk), "0 1, [1 2], [2 3], [3 4], 4 6");
  assert_eq!(made(&mut desk, "open 6162").number, 0);
  assert_eq!(spans(&desk), "0 2");
}

/// 6 leaves the cut before it and sets no mark.
#[test]
fn freezing_into_a_replacement() {
  let replaced = ("update_with 3 5 0 5859", 0, 2);
  let desk = desk("abcdef", &[replaced, ("freeze 1 4", 6, 1), ("freeze 4 6", 6, 0)]);
  assert_eq!(spans(&desk), "0 1, 1 3, 3 5, 5 6");
}

/// 20 behind the cuts, which stay; a range beside the frozen one is free.
#[test]
fn ranges() {
  let freeze = ("freeze 2 4", 0, 2);
  for call in ["remove", "reset", "update_with"] {
    let text = if call == "update_with" { " 0 78" } else { "" };
    let line = |range: &str| format!("{call} {range}{text}");
    let left =
      |range: &str, number, cuts| spans(&desk("abcdefgh", &[freeze, (&line(range), number, cuts)]));
    assert_eq!(left("1 3", 20, 2), "0 1, 1 2, [2 3], [3 4], 4 8");
    assert_eq!(left("3 7", 20, 2), "0 2, [2 3], [3 4], 4 7, 7 8");
    assert_eq!(left("0 8", 20, 0), "0 2, [2 4], 4 8");
    assert_eq!(left("2 4", 20, 0), "0 2, [2 4], 4 8");
    assert_eq!(left("0 2", 0, 0), "0 2, [2 4], 4 8");
    assert_eq!(left("4 6", 0, 1), "0 2, [2 4], 4 6, 6 8");
    assert_eq!(left("3 1", 4, 0), "0 2, [2 4], 4 8");
    assert_eq!(left("3 3", if text.is_empty() { 0 } else { 5 }, 0), "0 2, [2 4], 4 8");
  }
  // Past the end: a removal is refused, an update behind its cuts, a reset before them.
  let past = |line: &str, number, cuts| spans(&desk("abcdefgh", &[freeze, (line, number, cuts)]));
  assert_eq!(past("remove 3 9", 20, 1), "0 2, [2 3], [3 4], 4 8");
  assert_eq!(past("update_with 3 9 0 -", 10, 1), "0 2, [2 3], [3 4], 4 8");
  assert_eq!(past("reset 3 9", 10, 0), "0 2, [2 4], 4 8");
}

/// 20 comes behind 6 and before 7.
#[test]
fn beside_other_refusals() {
  let freeze = ("freeze 0 2", 0, 1);
  let replaced = ("update_with 4 6 0 5859", 0, 2);
  let cut = desk("abcdefgh", &[freeze, replaced, ("remove 1 5", 6, 1), ("reset 1 5", 6, 0)]);
  assert_eq!(spans(&cut), "[0 1], [1 2], 2 4, 4 6, 6 8");
  let moved = ("relocate 0 1 8", 0, 1);
  let across = desk("abcdefgh", &[freeze, moved, ("update_with 0 5 0 78", 20, 1)]);
  assert_eq!(spans(&across), "[1 2], 2 5, 5 8, [0 1]");
  let across = desk("abcdefgh", &[("freeze 6 8", 0, 1), moved, ("update_with 0 5 0 78", 7, 1)]);
  assert_eq!(spans(&across), "1 5, 5 6, [6 8], 0 1");
}

/// Insertions and moves are free; trims and indents are not, behind 15, 1 and 3.
#[test]
fn whole_desks() {
  let mut desk = desk(" a\u{e9} ", &[("freeze 1 2", 0, 2), ("relocate 1 2 5", 0, 0)]);
  assert_eq!(spans(&desk), "0 1, 2 5, [1 2]");
  for (line, number) in [
    ("trim 2", 15),
    ("trim 0", 20),
    ("trim_start 1", 20),
    ("trim_end 0", 20),
    ("trim_lines", 20),
    ("indent_with -", 20),
    ("indent_with none", 20),
    ("indent_with - 1", 15),
    ("indent_with ff", 1),
    ("indent_with - 3 4", 3),
    ("append_left 1 78", 0),
    ("prepend_right 1 79", 0),
    ("append 20", 0),
    ("prepend 20", 0),
  ] {
    assert_eq!(made(&mut desk, line), Answer::edit(number, 0), "{line}");
  }
  assert_eq!(desk.magic_string().to_string(), "  xé ya ");
}

/// 13 is judged on the desk that 20 leaves, and takes its cuts back.
#[test]
fn limits() {
  let limits = Limits { chunks: 3, bytes: 4, ..Limits::FULL };
  let mut desk = Desk::open(limits, b"abcdefgh").unwrap();
  let mut number = |line: &str| made(&mut desk, line).number;
  assert_eq!(number("freeze 2 4"), 0);
  assert_eq!(number("remove 3 6"), 13);
  assert_eq!(number("freeze 3 6"), 13);
  // The text of a replacement that is not made has no bytes.
  assert_eq!(number("update_with 2 4 0 5858585858"), 20);
  assert_eq!(number("trim 0"), 20);
  assert_eq!(spans(&desk), "0 2, [2 4], 4 8");
}

/// The chunk of an empty source, which no freezing marks.
#[test]
fn an_empty_source() {
  let chunk = ChunkData { frozen: true, ..Default::default() };
  let data = DeskData { chunks: vec![chunk], ..Default::default() };
  let mut desk = Desk::build(Limits::FULL, &data);
  for (line, number) in
    [("remove 0 5", 20), ("remove 1 5", 0), ("reset 0 1", 10), ("freeze 0 0", 0), ("trim 0", 20)]
  {
    assert_eq!(made(&mut desk, line).number, number, "{line}");
  }
  assert_eq!(desk.data(), data);
}

/// Freezes of the ranges that random calls name, before each of them.
#[test]
fn random_calls_hold() {
  let mut script = Script::new(Limits::FULL);
  let mut met = [0; 21];
  for (place, call) in generate(6, 6_000).into_iter().enumerate() {
    if let [start, end, ..] = call.positions()[..]
      && place % 3 == 0
    {
      let freeze = Call::Freeze { start, end };
      met[check::call(&mut script, &freeze).unwrap().unwrap().number as usize] += 1;
    }
    if let Some(answer) = check::call(&mut script, &call).unwrap() {
      met[answer.number as usize] += 1;
    }
  }
  assert!([0, 3, 4, 6, 7, 8, 9, 10, 13, 15, 20].iter().all(|&number| met[number] > 0), "{met:?}");
}
