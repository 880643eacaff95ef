//! Calls that nearly touch: every two of a small desk that reach bytes, every range with
//! every move, and every call alone.

use oracle::{
  Call::{self, *},
  SETTINGS,
};

use super::{Lists, Pair};

pub fn all() -> Vec<Pair> {
  [reaches(), moves(), alone(), kinds()].concat()
}

const SOURCE: &str = "abc";
const END: u32 = SOURCE.len() as u32;

/// Removals, replacements and resets of each range in turns, and all insertions.
fn reaching() -> Vec<Call> {
  let range = |(place, (start, end))| match place % 3 {
    0 => Remove { start, end },
    1 => update(start, end, b"U"),
    _ => Reset { start, end },
  };
  // Some of them of no text.
  let text = |at| if at % 2 == 0 { Vec::new() } else { b"i".to_vec() };
  let insertions = |at| SETTINGS.map(|setting| Insert { at, text: text(at), setting });
  let ranges = ranges().into_iter().enumerate().map(range);
  ranges.chain((0..=END).flat_map(insertions)).collect()
}

fn ranges() -> Vec<(u32, u32)> {
  (0..END).flat_map(|start| (start + 1..=END).map(move |end| (start, end))).collect()
}

fn update(start: u32, end: u32, text: &[u8]) -> Call {
  UpdateWith { start, end, overwrite: 1, text: text.to_vec() }
}

/// Every two, in the two lists or in one.
fn reaches() -> Vec<Pair> {
  let calls = reaching();
  let mut all = Vec::new();
  for (place, one) in calls.iter().enumerate() {
    for (other_place, other) in calls[place..].iter().enumerate() {
      let [one, other] = [one.clone(), other.clone()];
      let lists = match other_place % 3 {
        0 => Lists::of(&[one, other], &[]),
        _ => Lists::of(&[one], &[other]),
      };
      all.push(Pair::fresh("calls that nearly touch", SOURCE, lists));
    }
  }
  all
}

/// Every replacement, by some text or by none, and every removal and reset, with every move.
fn moves() -> Vec<Pair> {
  let mut all = Vec::new();
  for (start, end) in ranges() {
    for moved in every_move(END) {
      let call = match all.len() % 5 {
        0 => update(start, end, b""),
        1 => Remove { start, end },
        2 => Reset { start, end },
        _ => update(start, end, b"U"),
      };
      all.push(Pair::fresh("a range and a move", SOURCE, Lists::of(&[call], &[moved])));
    }
  }
  all
}

/// All three positions from 0 to this one.
fn every_move(last: u32) -> Vec<Call> {
  let ends = move |start| (0..=last).map(move |end| (start, end));
  let moves = |(start, end)| (0..=last).map(move |to| Relocate { start, end, to });
  (0..=last).flat_map(ends).flat_map(moves).collect()
}

/// Every call alone, with positions up to one past the end, on a fresh desk and on one in
/// use.
fn alone() -> Vec<Pair> {
  let mut calls = every_move(END + 1);
  for start in 0..=END + 1 {
    calls.extend(SETTINGS.map(|setting| Insert { at: start, text: b"i".to_vec(), setting }));
    for end in 0..=END + 1 {
      calls.extend([Remove { start, end }, Reset { start, end }, update(start, end, b"U")]);
    }
  }
  let in_use = [update(1, 3, b"bc"), Relocate { start: 0, end: 1, to: 3 }];
  let mut all = Vec::new();
  for (place, call) in calls.into_iter().enumerate() {
    let before = if place % 2 == 0 { &in_use[..] } else { &[] };
    let lists = Lists::of(&[call], &[]);
    all.push(Pair::in_use("every call alone", SOURCE, before, lists));
  }
  all
}

/// Each kind in each list, all of them apart, on a fresh desk and on one with pieces.
fn kinds() -> Vec<Pair> {
  let [a, b, c, d] = SETTINGS;
  let insert = |at, setting| Insert { at, text: b"i".to_vec(), setting };
  let calls = [
    Remove { start: 0, end: 2 },
    update(3, 5, b"U"),
    Reset { start: 6, end: 8 },
    Relocate { start: 3, end: 6, to: 20 },
    insert(0, a),
    insert(3, c),
    insert(5, b),
    insert(20, d),
    insert(20, c),
    insert(10, d),
    insert(12, a),
  ];
  let before = [insert(4, a), insert(1, d), Remove { start: 7, end: 9 }];
  let mut place = 0;
  let mut pair = |lists| {
    place += 1;
    let before = if place % 2 == 0 { &before[..] } else { &[] };
    Pair::in_use("every kind", "abcdefghijklmnopqrst", before, lists)
  };
  let mut all = vec![pair(Lists::of(&calls, &[]))];
  for at in 1..calls.len() {
    let (first, second) = calls.split_at(at);
    all.push(pair(Lists::of(first, second)));
    // One behind the other in turns.
    let turns = |odd| calls.iter().enumerate().filter(move |(place, _)| place % at % 2 == odd);
    let [first, second]: [Vec<Call>; 2] =
      [0, 1].map(|odd| turns(odd).map(|(_, call)| call.clone()).collect());
    all.push(pair(Lists::of(&first, &second)));
  }
  all
}
