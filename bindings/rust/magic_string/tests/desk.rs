//! What the wrapper shows of a desk, and its reports.

use magic_string::{Chunk, End::*, IndentOptions, MagicString, Side::*, Span, UpdateOptions};

/// A desk with something of everything.
fn edited() -> MagicString {
  let mut desk = MagicString::new("one, zwö, three\n").unwrap();
  desk.prepend("> ").unwrap().append("[end]").unwrap();
  desk.update(0, 3, "1").unwrap();
  desk.insert(3, "!", Left, Back).unwrap().insert(0, "#", Right, Back).unwrap();
  desk.remove(9, 16).unwrap().relocate(5, 9, 0).unwrap();
  desk
}

#[test]
fn chunk_by_chunk() {
  let desk = edited();
  assert_eq!(desk.source(), "one, zwö, three\n");
  assert_eq!(desk.intro(), ["> "]);
  assert_eq!(desk.outro(), ["[end]"]);
  let chunks: Vec<Chunk> = desk.chunks().collect();
  let untouched = |start, end| Chunk { span: Span(start, end), ..Default::default() };
  let first =
    Chunk { intro: vec!["#"], outro: vec!["!"], edited_content: Some("1"), ..untouched(0, 3) };
  let removed = Chunk { edited_content: Some(""), ..untouched(9, 16) };
  assert_eq!(chunks, [untouched(5, 9), first, untouched(3, 5), removed, untouched(16, 17)]);
}

/// The output is what the desk shows, one text behind the other.
#[test]
fn fragments_make_the_output() {
  let desk = edited();
  let chunks: String = desk.chunks().flat_map(|chunk| chunk.fragments(desk.source())).collect();
  assert_eq!(chunks.len(), desk.len());
  let output = desk.intro().concat() + &chunks + &desk.outro().concat();
  assert_eq!(output, desk.to_string());
}

#[test]
fn memory_is_given_and_taken_back() {
  let mut desk = edited();
  let (chunks, pieces, store) = desk.tables();
  let mut again = MagicString::from_tables(desk.source(), chunks, pieces, store).unwrap();
  assert_eq!(again, desk);
  for desk in [&mut desk, &mut again] {
    desk.reset(0, 17).unwrap();
  }
  assert_eq!(again, desk);
  assert_eq!(desk.to_string(), "> zwöone, , three\n[end]");
}

/// A frozen chunk is shown as one, is not equal to one that is not, and stays frozen where
/// the desk is given away as memory.
#[test]
fn frozen_chunks() {
  let mut desk = edited();
  let before = desk.clone();
  desk.freeze(0, 3).unwrap();
  assert_ne!(desk, before);
  assert_eq!(desk.to_string(), before.to_string());
  let frozen: Vec<(Span, bool)> = desk.chunks().map(|chunk| (chunk.span, chunk.frozen)).collect();
  let spans = [(5, 9), (0, 3), (3, 5), (9, 16), (16, 17)];
  assert_eq!(frozen, spans.map(|(start, end)| (Span(start, end), start == 0)));
  let first = desk.chunks().nth(1).unwrap();
  assert_eq!(first, Chunk { frozen: true, ..before.chunks().nth(1).unwrap() });
  assert!(format!("{desk:?}").contains(r#"edited_content: Some("1"), frozen: true }"#));

  let (chunks, pieces, store) = desk.tables();
  let again = MagicString::from_tables(desk.source(), chunks, pieces, store).unwrap();
  assert_eq!(again, desk);
}

/// Equal desks need not lie in memory alike, and equal outputs may be other desks.
#[test]
fn equality_is_of_desks() {
  let [mut first, mut second] = [(); 2].map(|()| MagicString::new("abcd").unwrap());
  first.insert(1, "x", Left, Back).unwrap().insert(3, "yy", Left, Back).unwrap();
  second.insert(3, "yy", Left, Back).unwrap().insert(1, "x", Left, Back).unwrap();
  assert_eq!(first, second);
  second.insert(4, "", Left, Back).unwrap();
  assert_eq!(first.to_string(), second.to_string());
  assert_ne!(first, second);
  assert_ne!(first, MagicString::default());
}

/// Beside a text on each side.
#[test]
fn settings_of_an_insertion() {
  for (side, end, left, right) in [
    (Left, Front, &["x", "l"][..], &["r"][..]),
    (Left, Back, &["l", "x"], &["r"]),
    (Right, Front, &["l"], &["x", "r"]),
    (Right, Back, &["l"], &["r", "x"]),
  ] {
    let mut desk = MagicString::new("ab").unwrap();
    desk.insert(1, "l", Left, Back).unwrap().insert(1, "r", Right, Back).unwrap();
    desk.insert(1, "x", side, end).unwrap();
    let [first, second] = &desk.chunks().collect::<Vec<_>>()[..] else { panic!() };
    assert_eq!((&first.outro[..], &second.intro[..]), (left, right));
  }
}

/// Left of all chunks and right of them.
#[test]
fn insertions_where_no_chunk_ends_or_starts() {
  let beside_all = |source: &str, at| {
    let mut desk = MagicString::new(source).unwrap();
    desk.insert(at, "l", Left, Back).unwrap().insert(at, "r", Right, Back).unwrap();
    (desk.intro() == ["l"], desk.outro() == ["r"])
  };
  assert_eq!(
    [0, 1, 2, 3].map(|at| beside_all("ab", at)),
    [(true, false), (false, false), (false, true), (true, true)]
  );
  assert_eq!([0, 1].map(|at| beside_all("", at)), [(false, false), (true, true)]);
}

#[test]
fn a_clone_is_its_own() {
  let mut desk = MagicString::new("abc").unwrap();
  let before = desk.clone();
  desk.remove(0, 1).unwrap();
  assert_eq!((before.to_string(), desk.to_string()), ("abc".into(), "bc".into()));
}

#[test]
fn reports() {
  let desk = edited();
  assert_eq!(desk.to_string(), "> zwö#1!, \n[end]");
  assert_eq!((desk.len(), desk.len_utf16(), desk.line_count()), (10, 9, 2));
  assert_eq!((desk.is_empty(), desk.has_changed()), (false, true));
  assert_eq!((desk.last_char(), desk.last_line()), (Some(']'), "[end]".to_string()));
  assert!(desk.is_range_within_edited_chunk(1, 2));
  assert!(!desk.is_range_within_edited_chunk(2, 4));
  assert_eq!(desk.slice(5, Some(9)), Ok("zwö".to_string()));
  assert_eq!(desk.get_indent_string(), "\t");

  let empty = MagicString::default();
  assert_eq!((empty.len(), empty.line_count()), (0, 0));
  assert_eq!((empty.is_empty(), empty.has_changed()), (true, false));
  assert_eq!((empty.last_char(), empty.last_line()), (None, String::new()));
  assert_eq!(format!("[{:>3}]", MagicString::new("é").unwrap()), "[  é]");
}

/// Desks whose output is the text alone: in the head, an intro, the source, a
/// replacement, an outro, and the tail.
fn alone(text: &str) -> [MagicString; 6] {
  let source = MagicString::new(text).unwrap();
  let mut replaced = MagicString::new("ab\n").unwrap();
  replaced.remove(0, 3).unwrap();
  let [mut head, mut intro, mut outro, mut tail] = [(); 4].map(|()| replaced.clone());
  head.prepend(text).unwrap();
  intro.insert(0, text, Right, Back).unwrap();
  replaced.update(0, 3, text).unwrap();
  outro.insert(3, text, Left, Back).unwrap();
  tail.append(text).unwrap();
  [head, intro, source, replaced, outro, tail]
}

/// As `str::lines` counts them, wherever the last byte stands, also with an empty piece
/// behind it.
#[test]
fn lines() {
  for text in ["", "\n", "a", "a\n", "\r", "a\r", "\r\n", "\n\n", "a\nb"] {
    for mut desk in alone(text) {
      for _ in 0..2 {
        assert_eq!(desk.to_string(), text);
        assert_eq!(desk.line_count(), text.lines().count(), "{desk:?}");
        desk.append("").unwrap();
      }
      desk.prepend("c\n").unwrap();
      assert_eq!(desk.line_count(), 1 + text.lines().count(), "{desk:?}");
    }
  }
}

#[test]
fn what_is_filed_is_printed_for_debugging() {
  let mut desk = MagicString::new("ab").unwrap();
  desk.remove(0, 1).unwrap().append("x").unwrap();
  let printed = format!("{desk:?}");
  assert!(printed.starts_with(r#"MagicString { source: "ab", intro: [], chunks: [Chunk { span"#));
  assert!(
    printed.contains(r#"edited_content: Some("")"#) && printed.ends_with(r#"outro: ["x"] }"#)
  );
}

/// Texts of any kind are taken, and calls are chained.
#[test]
fn as_in_string_wizard() {
  let name = String::from("x");
  let mut desk = MagicString::new(String::from("abc")).unwrap();
  desk.append(&name).unwrap().append(name).unwrap().append(std::borrow::Cow::from("y")).unwrap();
  desk.update_with(0, 1, "A", UpdateOptions { overwrite: true }).unwrap();
  assert_eq!(desk.to_string(), "Abcxxy");
}

#[test]
fn document_01_cases() {
  // C: a slice of zero width on the first chunk.
  assert_eq!(MagicString::new("abc").unwrap().slice(0, Some(0)), Ok("abc".to_string()));
  // G: pieces are trimmed one by one.
  let mut desk = MagicString::new("  ").unwrap();
  desk.insert(2, " x", Right, Back).unwrap().trim(None).unwrap();
  assert_eq!(desk.to_string(), " x");
  // H: the last piece alone.
  let mut desk = MagicString::new("abc").unwrap();
  desk.insert(3, "x", Right, Back).unwrap().insert(3, "", Right, Back).unwrap();
  assert_eq!(desk.last_char(), Some('c'));
  // I: each line is indented by the guessed tab; an empty indentor does nothing.
  let mut desk = MagicString::new("a\nb").unwrap();
  desk.indent_with(IndentOptions { indentor: Some(""), exclude: &[] }).unwrap();
  assert_eq!(desk, MagicString::new("a\nb").unwrap());
  desk.indent().unwrap();
  assert_eq!(desk.to_string(), "\ta\n\tb");
  // J: past the source, left goes to the head.
  let mut desk = MagicString::new("abc").unwrap();
  desk.insert(9, "x", Left, Back).unwrap();
  assert_eq!(desk.to_string(), "xabc");
  // `remove` from 0 on an empty source edits the one chunk once.
  let mut desk = MagicString::default();
  desk.insert(0, "x", Left, Back).unwrap().remove(0, 1).unwrap();
  assert_eq!(desk.to_string(), "");
}
