//! Random pairs, each the same for the same seed.

use oracle::{Call, DeskData, SETTINGS, random::Random};

use super::{
  Lists, Pair,
  lists::{self, list},
};
use crate::{
  any_order::{
    Check, Premises, Start,
    edits::Edits,
    lists::{desk_and_list, start},
    premises::{CHECKS, EDIT},
  },
  image::shuffle,
  layout::MOST_CHUNKS,
  made::{self, Aim, make},
  papers::{Caller, in_sheet::as_in_sheet},
  sheets::{call_changed, reading::MOST_RECORDS},
  sittings::HARMS,
};

pub fn pair(seed: u64) -> Pair {
  let random = &mut Random::new(seed);
  let pair = match random.below(40) {
    0..=12 => joined(random),
    13..=19 => one_check_failed(random),
    20..=22 => checks_failed(random),
    23..=26 => any_calls(random),
    27..=31 => small(random),
    32..=34 => changed(random),
    35 => Pair { harm: Some(HARMS[random.below(HARMS.len())]), ..checks_failed(random) },
    36 => empty_source(random),
    37 => large(random),
    _ => many(random),
  };
  pair.seeded(random)
}

/// Two lists for a join on this desk: some may be joined, others break a check or a rule.
pub fn lists_on(desk: &DeskData, random: &mut Random) -> Lists {
  let mut calls = apart(desk, random.below(5), random);
  if random.one_in(3) {
    let mut caller = Caller::new(desk.clone(), random.number());
    calls.extend((0..random.between(1, 2)).map(|_| short_enough(caller.in_sheet())));
  }
  let lists = split(calls, random);
  if random.one_in(8) { one_changed(lists, random) } else { lists }
}

/// Calls that may be joined on this desk, up to so many.
fn apart(desk: &DeskData, count: usize, random: &mut Random) -> Vec<Call> {
  let premises = Premises::on(desk);
  let longest = if count > 4 { 2 } else { desk.source.len().max(1) };
  let mut edits = Edits::new(desk, longest, random);
  let mut calls: Vec<Call> = Vec::new();
  for _ in 0..20 * count {
    let call = as_in_sheet(edits.any()).filter(|_| calls.len() < count);
    calls.extend(call.filter(|call| premises.failed_by(call, &calls).is_empty()));
  }
  calls
}

/// The calls in two lists: most often each in any of them, sometimes all in one.
fn split(mut calls: Vec<Call>, random: &mut Random) -> Lists {
  shuffle(&mut calls, random);
  let at = match random.below(8) {
    0 => 0,
    1 => calls.len(),
    _ => random.between(0, calls.len()),
  };
  let (first, second) = calls.split_at(at);
  Lists::of(first, second)
}

/// A desk and calls that pass every check, or fail the one that is left out.
fn listed(left_out: Option<Check>, random: &mut Random) -> (Start, Vec<Call>) {
  loop {
    if let Some(found) = desk_and_list(left_out, as_in_sheet, random) {
      return found;
    }
  }
}

fn joined(random: &mut Random) -> Pair {
  let (start, calls) = listed(None, random);
  Pair::new("random pairs that are joined", start, split(calls, random))
}

/// One of the checks that lists of records can fail.
fn any_check(random: &mut Random) -> Check {
  let checks: Vec<Check> = CHECKS.filter(|&check| check != EDIT).collect();
  checks[random.below(checks.len())]
}

fn one_check_failed(random: &mut Random) -> Pair {
  let (start, calls) = listed(Some(any_check(random)), random);
  Pair::new("random pairs that fail a check", start, split(calls, random))
}

/// One check is failed, and others by calls that are put beside it.
fn checks_failed(random: &mut Random) -> Pair {
  let (start, mut calls) = listed(Some(any_check(random)), random);
  let mut caller = Caller::new(start.desk(), random.number());
  calls.extend((0..random.between(1, 3)).map(|_| short_enough(caller.in_sheet())));
  Pair::new("random pairs that fail some checks", start, split(calls, random))
}

fn any_calls(random: &mut Random) -> Pair {
  let start = start(random.between(1, 30), random);
  let mut caller = Caller::new(start.desk(), random.number());
  let calls = (0..random.between(0, 4)).map(|_| short_enough(caller.in_sheet())).collect();
  Pair::new("random pairs of any calls", start, split(calls, random))
}

/// With no longer text than a record can have.
fn short_enough(mut call: Call) -> Call {
  if let Some(text) = call.text_mut() {
    text.truncate(40_000);
  }
  call
}

/// A few calls at any positions of a few bytes.
fn small(random: &mut Random) -> Pair {
  let source = random.between(1, 5);
  let start = start(source, random);
  let calls = (0..random.between(1, 4)).map(|_| anywhere(source + 1, random)).collect();
  Pair::new("random pairs on small desks", start, split(calls, random))
}

/// A call with positions up to this one.
fn anywhere(last: usize, random: &mut Random) -> Call {
  let mut position = || random.between(0, last) as u32;
  let (at, end, to) = (position(), position(), position());
  let (start, end) = (at.min(end), at.max(end));
  let text = made::text(random.below(3), random).into_bytes();
  match random.below(8) {
    0 => Call::Remove { start, end },
    1 => Call::UpdateWith { start, end, overwrite: 1, text },
    2 => Call::Reset { start, end },
    3 => Call::Relocate { start, end, to },
    choice => Call::Insert { at, text, setting: SETTINGS[choice - 4] },
  }
}

/// One of the lists, or both, break a rule, most often.
fn changed(random: &mut Random) -> Pair {
  let pair = if random.one_in(2) { joined(random) } else { checks_failed(random) };
  let lists = one_changed(pair.lists, random);
  Pair { tries: "random pairs, a list changed", lists, ..pair }
}

/// One of the lists with a changed record at any place, or without its end.
fn one_changed(lists: Lists, random: &mut Random) -> Lists {
  let turned = random.one_in(2);
  let Lists { first, second } = if turned { lists.turned() } else { lists };
  let records = lists::records(&first);
  let first = if first.is_empty() || random.one_in(4) {
    first[..random.between(0, first.len().saturating_sub(1))].to_vec()
  } else {
    let at = random.below(records.len() + 1);
    let (before, behind) = records.split_at(at);
    let call = Call::Insert { at: 0, text: b"x".to_vec(), setting: SETTINGS[random.below(4)] };
    [before.concat(), call_changed(&call, random), behind.concat()].concat()
  };
  let lists = Lists { first, second };
  if turned { lists.turned() } else { lists }
}

fn empty_source(random: &mut Random) -> Pair {
  let start = start(0, random);
  let calls = (0..random.below(3)).map(|_| anywhere(1, random)).collect();
  Pair::new("random pairs over an empty source", start, split(calls, random))
}

/// A desk that holds as much as it may, or nearly.
fn large(random: &mut Random) -> Pair {
  let desk = make(Aim::near_limits(random), random);
  let mut calls = apart(&desk, random.between(1, 6), random);
  let mut caller = Caller::new(desk.clone(), random.number());
  if random.one_in(3) {
    calls.push(short_enough(caller.to_most_chunks()));
  }
  // Texts that together take all bytes that are left, one less or one more.
  let taken = (caller.bytes_left() + 1).saturating_sub(random.below(3));
  let texts: usize = calls.iter().filter_map(Call::text).map(<[u8]>::len).sum();
  if let Some(text) = calls.iter_mut().find_map(Call::text_mut) {
    text.extend(made::text(taken.saturating_sub(texts), random).into_bytes());
  }
  Pair::new("random pairs on large desks", Start::Made(desk), split(calls, random))
}

/// Lists of many calls: as many as there is space for, a few more, or up to the most
/// records in each.
fn many(random: &mut Random) -> Pair {
  let space = MOST_CHUNKS / 3;
  let count = match random.below(4) {
    0 => random.between(space + 1, 2 * MOST_RECORDS),
    1 => random.between(space - 1, space + 2),
    _ => random.between(40, space),
  };
  let start = start(random.between(5 * count, 4_000), random);
  let source = start.desk().source;
  let boundary = |at: &usize| source.is_char_boundary(*at);
  let mut places: Vec<usize> = (1..=source.len()).filter(boundary).collect();
  shuffle(&mut places, random);
  places.truncate(count);
  let calls: Vec<Call> = places.into_iter().map(|at| beside(at, random)).collect();
  let (first, second) = calls.split_at(calls.len().min(random.between(0, MOST_RECORDS)));
  let second = &second[..second.len().min(MOST_RECORDS)];
  Pair::new("random pairs of many calls", start, Lists { first: list(first), second: list(second) })
}

/// A left insertion at this place: insertions at other places are apart from it.
fn beside(at: usize, random: &mut Random) -> Call {
  let text = made::text(random.below(4), random).into_bytes();
  let setting = SETTINGS[2 * random.below(2)];
  Call::Insert { at: at as u32, text, setting }
}
