//! Random desks and lists of edits that pass the checks, or fail one of them alone.

use oracle::{Call, Desk, DeskData, Limits, apply, random::Random};

use super::{
  Later, Sitting,
  edits::Edits,
  orders::{ALL_UP_TO, orders},
  premises::{CHECKS, Check, Premises, inserts},
  sitting::Start,
};
use crate::{
  joins,
  layout::*,
  made::{self, Aim, make, marked},
  papers::Caller,
};

/// A sitting of this seed: its list passes every check, or all but the one left
/// out, which it fails. None where the seed gives no such list.
pub fn sitting(left_out: Option<Check>, seed: u64) -> Option<Sitting> {
  let random = &mut Random::new(seed);
  let (start, list) = desk_and_list(left_out, Some, random)?;
  let later = later(&start.desk(), &list, random);
  let orders = orders(list.len(), random);
  Some(Sitting { start, list, orders, later, seed: random.number() })
}

/// A desk and a list of edits as above, each of them as `allow` gives it, if it does.
pub fn desk_and_list(
  left_out: Option<Check>,
  allow: fn(Call) -> Option<Call>,
  random: &mut Random,
) -> Option<(Start, Vec<Call>)> {
  let plan = Plan::any(left_out, random);
  let desk = plan.start.desk();
  let premises = Premises::on(&desk);
  let mut list = list(&plan, &desk, &premises, left_out, allow, random);
  if plan.uses_up_bytes {
    let left = premises.left(&list).bytes + plan.one_more as i64;
    add_bytes(&mut list, left.try_into().ok()?, random)?;
  }
  let whole = !plan.exact || list.len() == plan.edits;
  if !whole || list.is_empty() || !premises.failed(&list).iter().eq(&left_out) {
    return None;
  }
  Some((plan.start, list))
}

/// What a list is to have.
struct Plan {
  start: Start,
  edits: usize,
  /// How many of the edits are insertions, where that matters.
  insertions: Option<usize>,
  /// Whether the list must have as many edits as planned.
  exact: bool,
  uses_up_bytes: bool,
  /// One chunk, piece or byte more than there is space for.
  one_more: usize,
}

const EMPTY_SOURCE: Check = *CHECKS.start();
const NO_SPACE: Check = *CHECKS.end();

impl Plan {
  fn any(left_out: Option<Check>, random: &mut Random) -> Self {
    match (left_out, random.below(20)) {
      (Some(EMPTY_SOURCE), _) => Self::short(0, random),
      (Some(NO_SPACE), _) => Self::space_used_up(1, random),
      (Some(_), _) => Self::short(random.between(1, 6), random),
      (None, 0..=13) => Self::short(random.between(1, 24), random),
      (None, 14..=16) => Self::long(random),
      (None, _) => Self::space_used_up(0, random),
    }
  }

  fn short(source: usize, random: &mut Random) -> Self {
    let edits = [1, 2, 2, 3, 3, ALL_UP_TO, ALL_UP_TO][random.below(7)];
    Self::of(start(source, random), edits)
  }

  fn long(random: &mut Random) -> Self {
    let edits = random.between(ALL_UP_TO + 1, 40);
    Self::of(start(random.between(4 * edits, 600), random), edits)
  }

  fn of(start: Start, edits: usize) -> Self {
    Self { start, edits, insertions: None, exact: false, uses_up_bytes: false, one_more: 0 }
  }

  /// Some of the limits are just reached by the reckoning, or passed by one.
  fn space_used_up(one_more: usize, random: &mut Random) -> Self {
    let edits = [1, 2, 2, 3, 3, 4, 4, 4, 9, 40, MOST_CHUNKS / 3][random.below(11)];
    let insertions = [edits, random.between(0, edits)][random.below(2)];
    let which = random.between(1, 7);
    let aim = Aim { source: random.between(10, 300).max(8 * edits), ..Aim::small(random) };
    let chunks = if which & 1 != 0 { MOST_CHUNKS - 3 * edits + one_more } else { aim.chunks };
    // No more than a desk may have, where no edit is an insertion.
    let most_pieces = (MOST_PIECES - insertions + one_more).min(MOST_PIECES);
    let pieces = if which & 2 != 0 { most_pieces } else { aim.pieces };
    let bytes = if random.one_in(2) { random.below(MOST_BYTES) } else { aim.bytes };
    let source = aim.source.max(5 * chunks).min(MOST_SOURCE);
    let start = match which {
      // A store that a list fills needs no desk made by hand.
      4 if random.one_in(2) => start(source, random),
      _ => Start::Made(by_hand(Aim { source, chunks, pieces, bytes }, random)),
    };
    let (insertions, uses_up_bytes) = (Some(insertions), which & 4 != 0);
    Self { start, edits, insertions, exact: true, uses_up_bytes, one_more }
  }
}

/// A desk made by hand, with marks or without.
fn by_hand(aim: Aim, random: &mut Random) -> DeskData {
  let desk = make(aim, random);
  if random.one_in(3) { marked(desk, random) } else { desk }
}

/// A desk over a source of so many bytes: fresh, in use, or made by hand.
pub fn start(source: usize, random: &mut Random) -> Start {
  let kind = random.below(4);
  if kind == 0 {
    return Start::Made(by_hand(Aim { source, ..Aim::small(random) }, random));
  }
  let source = made::text(source, random).into_bytes();
  let fresh = Start::Opened { source: source.clone(), calls: Vec::new() };
  if kind == 1 {
    return fresh;
  }
  let mut caller = Caller::new(fresh.desk(), random.number());
  let frozen = if random.one_in(3) { random.between(1, 4) } else { usize::MAX };
  let call = |place: usize| match place % frozen {
    0 if place > 0 => caller.freeze().call,
    _ => caller.call_on_desk().call,
  };
  let calls = (0..random.between(1, 8)).map(call).collect::<Vec<_>>();
  Start::Opened { source, calls: calls.into_iter().filter(Call::is_edit).collect() }
}

/// Random edits, of which those stay that fail no check beside the ones before
/// them, or none but the one left out.
fn list(
  plan: &Plan,
  desk: &DeskData,
  premises: &Premises,
  left_out: Option<Check>,
  allow: fn(Call) -> Option<Call>,
  random: &mut Random,
) -> Vec<Call> {
  let longest = if plan.edits > ALL_UP_TO { 2 } else { desk.source.len().max(1) };
  let mut edits = Edits::new(desk, longest, random);
  let mut list: Vec<Call> = Vec::new();
  for _ in 0..40 * plan.edits {
    if list.len() == plan.edits {
      break;
    }
    let Some(call) = allow(edits.any()) else { continue };
    let insertions = list.iter().filter(|call| inserts(call)).count();
    let wanted = plan.insertions.is_none_or(|count| inserts(&call) == (insertions < count));
    if wanted && premises.failed_by(&call, &list).iter().all(|&failed| Some(failed) == left_out) {
      list.push(call);
    }
  }
  list
}

/// Makes the texts of the list longer by so many bytes: one of them, or two.
fn add_bytes(list: &mut [Call], bytes: usize, random: &mut Random) -> Option<()> {
  let mut texts: Vec<&mut Vec<u8>> = list.iter_mut().filter_map(Call::text_mut).collect();
  let count = texts.len();
  let first = if random.one_in(2) { bytes } else { random.between(0, bytes) };
  for part in [first, bytes - first] {
    let text = texts.get_mut(random.below(count.max(1)))?;
    text.extend(made::text(part, random).into_bytes());
  }
  Some(())
}

/// One later call in so many is a join, and one a freezing.
const JOINS: usize = 12;
const FREEZINGS: usize = 12;

/// Calls on what the list leaves, by the oracle.
fn later(desk: &DeskData, list: &[Call], random: &mut Random) -> Vec<Later> {
  let mut desk = Desk::build(Limits::FULL, desk);
  list.iter().for_each(|call| {
    apply(&mut desk, call);
  });
  let mut caller = Caller::new(desk.data(), random.number());
  let count = random.between(1, 8);
  let mut later = |_| {
    let later = if random.one_in(JOINS) {
      Later::join(joins::lists_on(&desk.data(), random), random.number())
    } else if random.one_in(FREEZINGS) {
      Later::new(caller.freeze(), &desk)
    } else {
      Later::new(caller.call_on_desk(), &desk)
    };
    later.expected(&mut desk);
    caller.change(|callers| callers.clone_from(&desk));
    later
  };
  (0..count).map(&mut later).collect()
}
