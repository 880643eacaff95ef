//! Cores that count the lines of the output otherwise are caught by a hundred papers of
//! `lines`, in which any place has the last byte.

use std::{collections::BTreeSet, time::Duration};

use differential::{
  Answer, Core, Lent, Start, Unseen,
  compare::{Compared, compare_on},
  cores::StandIn,
  image,
  papers::lines,
};
use oracle::{Call, DeskData, random::Random};

use Place::*;

#[derive(Debug, Clone, Copy, PartialEq, Eq, PartialOrd, Ord)]
enum Place {
  Head,
  Intro,
  Source,
  Replacement,
  Outro,
  Tail,
}

/// A text of the output, and where it stands.
type Text<'a> = (Place, &'a str);

/// The texts that are the output, one behind the other.
fn texts(desk: &DeskData) -> Vec<Text<'_>> {
  let mut texts = pieces(Head, &desk.head);
  for chunk in &desk.chunks {
    let kept = &desk.source[chunk.start as usize..chunk.end as usize];
    let replacement = chunk.edited_content.as_deref();
    texts.extend(pieces(Intro, &chunk.intro));
    texts.push(replacement.map_or((Source, kept), |text| (Replacement, text)));
    texts.extend(pieces(Outro, &chunk.outro));
  }
  texts.extend(pieces(Tail, &desk.tail));
  texts
}

fn pieces(place: Place, list: &[String]) -> Vec<Text<'_>> {
  list.iter().map(|text| (place, text.as_str())).collect()
}

/// How a core counts the lines of these texts.
type Count = fn(&[Text]) -> usize;

#[derive(Clone)]
struct Counter {
  right: StandIn,
  count: Count,
}

impl Core for Counter {
  fn name(&self) -> &'static str {
    "counter"
  }

  fn call(&mut self, lent: &mut Lent, call: &Call, unseen: &Unseen, out: &mut [u8]) -> Answer {
    let answer = self.right.call(lent, call, unseen, out);
    if *call != Call::LineCount || answer.number != 0 {
      return answer;
    }
    let desk = image::decode(lent.source, lent.chunks, lent.pieces, lent.store);
    Answer { value: (self.count)(&texts(&desk)) as u32, ..answer }
  }

  fn well_formed(&mut self, lent: &Lent) -> Answer {
    self.right.well_formed(lent)
  }
}

/// The output of these places.
fn output(texts: &[Text], of: impl Fn(Place) -> bool) -> String {
  texts.iter().filter(|(place, _)| of(*place)).map(|(_, text)| *text).collect()
}

fn all(texts: &[Text]) -> String {
  output(texts, |_| true)
}

/// The lines of what stands elsewhere.
fn without(left_out: Place, texts: &[Text]) -> usize {
  output(texts, |place| place != left_out).lines().count()
}

fn right(texts: &[Text]) -> usize {
  all(texts).lines().count()
}

/// The line feeds of the output, and a line more where its end is open.
fn counted(texts: &[Text], open: impl Fn(&str) -> bool) -> usize {
  let all = all(texts);
  all.matches('\n').count() + open(&all) as usize
}

/// Whether there are bytes, and no line feed at their end.
fn is_open(text: &str) -> bool {
  !text.is_empty() && !text.ends_with('\n')
}

const WRONG: [(&str, Count); 14] = [
  ("one more than the line feeds", |texts| counted(texts, |_| true)),
  ("a last line feed opens a line", |texts| counted(texts, |all| !all.is_empty())),
  ("an empty output has a line", |texts| right(texts).max(1)),
  ("a carriage return closes a line", |texts| all(texts).replace('\r', "\n").lines().count()),
  ("one at the end closes the last line", |texts| {
    counted(texts, |all| is_open(all) && !all.ends_with('\r'))
  }),
  ("an empty piece at the tail's end opens a line", |texts| {
    let empty = matches!(texts.last(), Some((Tail, "")));
    counted(texts, |all| is_open(all) || (empty && !all.is_empty()))
  }),
  ("any empty text at the end opens a line", |texts| {
    let empty = matches!(texts.last(), Some((_, "")));
    counted(texts, |all| is_open(all) || (empty && !all.is_empty()))
  }),
  ("the last byte is the chunks'", |texts| {
    counted(texts, |_| is_open(&output(texts, |place| !matches!(place, Head | Tail))))
  }),
  ("without the head", |texts| without(Head, texts)),
  ("without intros", |texts| without(Intro, texts)),
  ("without the source", |texts| without(Source, texts)),
  ("without replacements", |texts| without(Replacement, texts)),
  ("without outros", |texts| without(Outro, texts)),
  ("without the tail", |texts| without(Tail, texts)),
];

fn compared(count: Count, papers: u64) -> Compared {
  let mut core = Counter { right: StandIn::new(1), count };
  compare_on(lines::paper, &mut core, 9, 2 * papers, Duration::MAX)
}

#[test]
fn wrong_counts_are_caught() {
  for (name, count) in WRONG {
    let Compared { tally, different } = compared(count, 100);
    println!("{name}: behind {} papers", tally.papers);
    let (paper, found) = different.unwrap_or_else(|| panic!("not caught: {name}"));
    let calls: Vec<&Call> = paper.calls.iter().map(|made| &made.call).collect();
    assert_eq!(calls, [&Call::LineCount], "{name}\n{paper}{}", found.what);
  }
}

#[test]
fn right_counts_are_not() {
  if let Some((paper, found)) = compared(right, 2_000).different {
    panic!("{paper}{}", found.what);
  }
}

/// Where the last byte of the output stands, which it is, and whether an empty piece
/// stands behind it.
fn end(texts: &[Text]) -> Option<(Place, u8, bool)> {
  let at = texts.iter().rposition(|(_, text)| !text.is_empty())?;
  let (place, text) = texts[at];
  let is_piece = |(place, _): &Text| !matches!(place, Source | Replacement);
  Some((place, *text.as_bytes().last()?, texts[at + 1..].iter().any(is_piece)))
}

#[test]
fn any_place_has_the_last_byte() {
  let mut seeds = Random::new(9);
  let mut met = BTreeSet::new();
  for _ in 0..2_000 {
    let Start::Desk { desk, .. } = lines::paper(seeds.number()).start else { panic!("no desk") };
    met.insert(end(&texts(&desk)));
  }
  assert!(met.contains(&None), "no empty output");
  for place in [Head, Intro, Source, Replacement, Outro, Tail] {
    for byte in *b"\n\ra" {
      for empty in [false, true] {
        assert!(met.contains(&Some((place, byte, empty))), "{place:?}, {byte}, {empty}");
      }
    }
  }
}
