//! A second reading of joins: what calls reach is marked place by place, by rules that can
//! be changed one by one: what a core answers that joins by it.

use differential::{Answer, Lent};
use oracle::{Call, Counts, Desk, apply};

use crate::sheet_rules::{self, Reading, desk, fresh, put};

/// What a join is refused for.
#[derive(Debug, Clone, Copy, PartialEq, Eq)]
pub enum Ground {
  NoDesk,
  BadList,
  NotApart,
  RefusedAlone,
  NoSpace,
}

/// The calls of the first list and of the second.
pub type Calls = [Vec<Call>; 2];

/// Chunks, pieces and bytes.
pub type Space = [usize; 3];

/// A place that calls reach.
#[derive(Debug, Clone, Copy, PartialEq, Eq, PartialOrd, Ord)]
pub enum Spot {
  Head,
  Byte(u32),
  Tail,
}

#[derive(Clone)]
pub struct Rules {
  /// The form of each list.
  pub form: [sheet_rules::Rules; 2],
  /// Whether lists of so many records and so many bytes are taken.
  pub bounds: fn([usize; 2], [usize; 2]) -> bool,
  /// What a list that breaks a rule is taken for.
  pub bad: fn(&sheet_rules::Rules, &[u8]) -> Option<Vec<Call>>,
  /// In the order in which it is tested.
  pub order: [Ground; 5],
  /// Whether the lists are joined over an empty source.
  pub over_nothing: fn(&Calls) -> bool,
  pub wide: fn(&Call) -> bool,
  /// Whether the positions of a call are within a source of so many bytes.
  pub within: fn(&Call, u32) -> bool,
  pub reach: fn(&Call, u32) -> Vec<Spot>,
  /// Whether the calls at these places of both lists, of which the first has so many, are
  /// compared with each other.
  pub compared: fn([usize; 2], usize) -> bool,
  pub moves: fn(&Calls) -> bool,
  /// Whether the move, with these positions, is free of the other call.
  pub free: fn([u32; 3], &Call) -> bool,
  /// Whether each call is accepted alone.
  pub alone: fn(&Desk, &Calls) -> bool,
  /// What the desk has, and what a call needs more at most.
  pub used: fn(&Desk) -> Space,
  pub needed: fn(&Call) -> Space,
  pub most: Space,
  /// The lists that are reckoned together; there must be space for each of these.
  pub reckoned: fn(&Calls) -> Vec<Vec<Call>>,
  /// Whether there is space in another way.
  pub fits: fn(&Desk, &Calls) -> bool,
  /// The number of a refusal.
  pub number: fn(Ground, &Desk, &Calls) -> u32,
  /// Makes the calls, with the cuts of each list.
  pub make: fn(&mut Desk, &Calls) -> [u32; 2],
  pub value: fn([u32; 2], &Desk, &Calls) -> u32,
  /// The desk that a refused join leaves, and its value, where it leaves another than it
  /// found.
  pub refused: fn(&Desk, &Calls) -> Option<(Desk, u32)>,
  /// Whether the desk of an accepted join is laid out anew.
  pub lays_out: fn(&Calls) -> bool,
}

/// The start and the end of a removal, replacement or reset.
pub fn range(call: &Call) -> Option<[u32; 2]> {
  match call {
    Call::Remove { .. } | Call::UpdateWith { .. } | Call::Reset { .. } => {
      call.positions().try_into().ok()
    }
    _ => None,
  }
}

/// The three positions of a move.
pub fn moved(call: &Call) -> Option<[u32; 3]> {
  matches!(call, Call::Relocate { .. }).then(|| call.positions().try_into().ok()).flatten()
}

pub fn reach(call: &Call, source: u32) -> Vec<Spot> {
  if let Some([start, end]) = range(call) {
    return (start..end.min(source)).map(Spot::Byte).collect();
  }
  let Call::Insert { at, setting, .. } = *call else { return Vec::new() };
  vec![match setting.left {
    true if at == 0 => Spot::Head,
    true => Spot::Byte(at - 1),
    false if at >= source => Spot::Tail,
    false => Spot::Byte(at),
  }]
}

/// Whether none of the positions of a move lies strictly inside what the call replaces.
pub fn free(moved: &[u32], call: &Call) -> bool {
  match *call {
    Call::UpdateWith { start, end, .. } => moved.iter().all(|&at| at <= start || at >= end),
    _ => true,
  }
}

pub fn make(desk: &mut Desk, calls: &[Call]) -> u32 {
  calls.iter().map(|call| apply(desk, call).value).sum()
}

pub fn accepted(desk: &Desk, call: &Call) -> bool {
  apply(&mut desk.clone(), call).number == 0
}

pub fn needed(call: &Call) -> Space {
  let inserts = matches!(call, Call::Insert { .. });
  [3, inserts as usize, call.text().map_or(0, <[u8]>::len)]
}

pub fn used(desk: &Desk) -> Space {
  let Counts { chunks, pieces, bytes } = desk.counts();
  [chunks, pieces, bytes]
}

/// The calls up to the first record that breaks a rule.
pub fn front(form: &sheet_rules::Rules, list: &[u8]) -> Vec<Call> {
  let mut calls = Vec::new();
  let mut rest = list;
  loop {
    let len = form.length_at(rest, 0);
    let call = rest.get(..2 + len).and_then(|record| form.call(record, len));
    let Some(call) = call else { return calls };
    calls.push(call);
    rest = &rest[2 + len..];
  }
}

impl Rules {
  pub fn right() -> Self {
    let order =
      [Ground::NoDesk, Ground::BadList, Ground::NotApart, Ground::RefusedAlone, Ground::NoSpace];
    Self {
      form: [sheet_rules::Rules::right(), sheet_rules::Rules::right()],
      bounds: |records, bytes| {
        records.iter().all(|&count| count <= 200) && bytes.iter().all(|&len| len <= 57_344)
      },
      bad: |_, _| None,
      order,
      over_nothing: |_| false,
      wide: |call| range(call).is_none_or(|[start, end]| start < end),
      within: |call, source| call.positions().iter().all(|&at| at <= source),
      reach,
      compared: |_, _| true,
      moves: |calls| calls.iter().flatten().filter_map(moved).count() <= 1,
      free: |moved, call| free(&moved, call),
      alone: |desk, calls| calls.iter().flatten().all(|call| accepted(desk, call)),
      used,
      needed,
      most: [512, 1_024, 32_768],
      reckoned: |calls| vec![calls.concat()],
      fits: |_, _| true,
      number: |ground, _, _| match ground {
        Ground::NoDesk => 2,
        Ground::BadList => 16,
        Ground::NotApart => 18,
        Ground::RefusedAlone => 19,
        Ground::NoSpace => 13,
      },
      make: |desk, [first, second]| [make(desk, first), make(desk, second)],
      value: |[first, second], _, _| first + second,
      refused: |_, _| None,
      lays_out: |calls| calls.iter().any(|list| !list.is_empty()),
    }
  }

  /// The calls of both lists.
  fn read(&self, lists: [&[u8]; 2]) -> Option<Calls> {
    let [first, second] = [0, 1].map(|place| {
      let (form, list) = (&self.form[place], lists[place]);
      let read = form.list(list);
      let calls = read.map(|calls| calls.into_iter().map(|(_, call)| call).collect());
      calls.or_else(|| (self.bad)(form, list))
    });
    let calls: Calls = [first?, second?];
    let records = [calls[0].len(), calls[1].len()];
    (self.bounds)(records, lists.map(<[u8]>::len)).then_some(calls)
  }

  fn is_apart(&self, desk: &Desk, calls: &Calls) -> bool {
    let source = desk.magic_string().source().len() as u32;
    if source == 0 {
      return (self.over_nothing)(calls);
    }
    let (first, both) = (calls[0].len(), calls.concat());
    let each = both.iter().all(|call| (self.wide)(call) && (self.within)(call, source));
    if !each || !(self.moves)(calls) {
      return false;
    }
    let compared = |one: usize, other: usize| {
      one != other && (self.compared)([one.min(other), one.max(other)], first)
    };
    let mut reached: Vec<(Spot, usize)> = Vec::new();
    for (place, call) in both.iter().enumerate() {
      reached.extend((self.reach)(call, source).into_iter().map(|spot| (spot, place)));
    }
    reached.sort();
    let twice = |same: &[(Spot, usize)]| {
      let places = || same.iter().map(|&(_, place)| place);
      places().any(|one| places().any(|other| compared(one, other)))
    };
    let is_free = both.iter().enumerate().all(|(place, call)| {
      let Some(moved) = moved(call) else { return true };
      let mut others = both.iter().enumerate().filter(|&(other, _)| compared(place, other));
      others.all(|(_, other)| (self.free)(moved, other))
    });
    is_free && !reached.chunk_by(|one, other| one.0 == other.0).any(twice)
  }

  fn has_space(&self, desk: &Desk, calls: &Calls) -> bool {
    let enough = |list: &Vec<Call>| {
      let mut space = (self.used)(desk);
      for needed in list.iter().map(self.needed) {
        space.iter_mut().zip(needed).for_each(|(sum, more)| *sum += more);
      }
      space.iter().zip(self.most).all(|(&sum, most)| sum <= most)
    };
    (self.reckoned)(calls).iter().all(enough) && (self.fits)(desk, calls)
  }

  fn join(&self, lent: &mut Lent, lists: [&[u8]; 2]) -> Answer {
    let (desk, calls) = (desk(lent), self.read(lists));
    let [no_desk, bad_list] = [desk.is_none(), calls.is_none()];
    // Grounds that are tested before these are judged on a fresh desk, and of the calls
    // that can be read.
    let Some(desk) = desk.or_else(|| fresh(lent.source)) else { return Answer::NO_DESK };
    let calls = calls.unwrap_or_else(|| [0, 1].map(|place| front(&self.form[place], lists[place])));
    let is_due = |ground: &Ground| match ground {
      Ground::NoDesk => no_desk,
      Ground::BadList => bad_list,
      Ground::NotApart => !self.is_apart(&desk, &calls),
      Ground::RefusedAlone => !(self.alone)(&desk, &calls),
      Ground::NoSpace => !self.has_space(&desk, &calls),
    };
    if let Some(ground) = self.order.into_iter().find(is_due) {
      let number = (self.number)(ground, &desk, &calls);
      let is_judged = !no_desk && !bad_list;
      return match is_judged.then(|| (self.refused)(&desk, &calls)).flatten() {
        None => Answer { number, value: 0 },
        Some((left, value)) => {
          put(&left, lent);
          Answer { number, value }
        }
      };
    }
    let mut made = desk.clone();
    let cuts = (self.make)(&mut made, &calls);
    if (self.lays_out)(&calls) {
      put(&made, lent);
    }
    Answer { number: 0, value: (self.value)(cuts, &made, &calls) }
  }
}

impl Reading for Rules {
  fn join(&mut self, lent: &mut Lent, lists: [&[u8]; 2]) -> Option<Answer> {
    Some(Rules::join(self, lent, lists))
  }
}
