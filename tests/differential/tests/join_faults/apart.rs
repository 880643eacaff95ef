//! What calls are taken to be apart.

use oracle::{APPEND_LEFT, APPEND_RIGHT, Call};

use super::Fault;
use crate::join_rules::{Spot, free, moved, range, reach};

pub const FAULTS: &[Fault] = &[
  // The source.
  ("no call over an empty source is accepted", |rules| {
    rules.over_nothing = |calls| calls.concat().is_empty();
  }),
  ("calls over an empty source are accepted", |rules| rules.over_nothing = |_| true),
  // Widths.
  ("a removal of no byte", |rules| {
    rules.wide =
      |call| is_wide(call) || matches!(call, Call::Remove { start, end } if start == end);
  }),
  ("a reset of no byte", |rules| {
    rules.wide = |call| is_wide(call) || matches!(call, Call::Reset { start, end } if start == end);
  }),
  ("a replacement of no byte is refused alone", |rules| {
    rules.wide = |call| is_wide(call) || matches!(call, Call::UpdateWith { .. });
  }),
  ("a range that ends before it starts is refused alone", |rules| {
    rules.wide = |call| range(call).is_none_or(|[start, end]| start != end);
  }),
  ("a move of no byte", |rules| {
    rules.wide = |call| is_wide(call) && moved(call).is_none_or(|[start, end, _]| start != end);
  }),
  ("a move whose end comes first is 18", |rules| {
    rules.wide = |call| is_wide(call) && moved(call).is_none_or(|[start, end, _]| start <= end);
  }),
  // Positions.
  ("a position one past the end", |rules| {
    rules.within = |call, source| call.positions().iter().all(|&at| at <= source + 1);
  }),
  ("no position at the end", |rules| {
    rules.within = |call, source| call.positions().iter().all(|&at| at < source);
  }),
  ("a range may end past the source", |rules| {
    rules.within = |call, source| range(call).is_some() || is_within(call, source);
  }),
  ("an insertion may be past the end", |rules| {
    rules.within = |call, source| matches!(call, Call::Insert { .. }) || is_within(call, source);
  }),
  ("a move may go past the end", |rules| {
    rules.within = |call, source| moved(call).is_some() || is_within(call, source);
  }),
  ("the first position alone is within the source", |rules| {
    rules.within = |call, source| call.positions()[0] <= source;
  }),
  // Which calls are compared.
  ("calls of different lists are not compared", |rules| {
    rules.compared = |[one, other], first| (one < first) == (other < first);
  }),
  ("calls of the first list are not compared", |rules| {
    rules.compared = |[_, other], first| other >= first;
  }),
  ("calls of the second list are not compared", |rules| {
    rules.compared = |[one, _], first| one < first;
  }),
  ("calls of one list are not compared", |rules| {
    rules.compared = |[one, other], first| (one < first) != (other < first);
  }),
  ("neighbours alone are compared", |rules| rules.compared = |[one, other], _| other == one + 1),
  ("the first call is compared with none", |rules| rules.compared = |[one, _], _| one > 0),
  ("no two calls are compared", |rules| rules.compared = |_, _| false),
  // What calls reach.
  ("a removal reaches nothing", |rules| {
    rules.reach = |call, source| match call {
      Call::Remove { .. } => Vec::new(),
      _ => reach(call, source),
    };
  }),
  ("a reset reaches nothing", |rules| {
    rules.reach = |call, source| match call {
      Call::Reset { .. } => Vec::new(),
      _ => reach(call, source),
    };
  }),
  ("a range reaches the byte behind it", |rules| {
    rules.reach = |call, source| match range(call) {
      Some([start, end]) => (start..=end).map(Spot::Byte).collect(),
      None => reach(call, source),
    };
  }),
  ("a range does not reach its last byte", |rules| {
    rules.reach = |call, source| match range(call) {
      Some([start, end]) => (start..end - 1).map(Spot::Byte).collect(),
      None => reach(call, source),
    };
  }),
  ("a range reaches its first and last byte alone", |rules| {
    rules.reach = |call, source| match range(call) {
      Some([start, end]) => vec![Spot::Byte(start), Spot::Byte(end - 1)],
      None => reach(call, source),
    };
  }),
  ("a left insertion reaches the byte behind it", |rules| {
    rules.reach = |call, source| match *call {
      Call::Insert { at, ref text, .. } if at > 0 => {
        reach(&Call::Insert { at, text: text.clone(), setting: APPEND_RIGHT }, source)
      }
      _ => reach(call, source),
    };
  }),
  ("a right insertion reaches the byte before it", |rules| {
    rules.reach = |call, source| match *call {
      Call::Insert { at, ref text, .. } if at < source => {
        reach(&Call::Insert { at, text: text.clone(), setting: APPEND_LEFT }, source)
      }
      _ => reach(call, source),
    };
  }),
  ("an insertion reaches both bytes beside it", |rules| {
    rules.reach = |call, source| match *call {
      Call::Insert { at, .. } if at > 0 && at < source => vec![Spot::Byte(at - 1), Spot::Byte(at)],
      _ => reach(call, source),
    };
  }),
  ("an insertion reaches nothing", |rules| {
    rules.reach = |call, source| match call {
      Call::Insert { .. } => Vec::new(),
      _ => reach(call, source),
    };
  }),
  ("left at 0 reaches the first byte", |rules| {
    rules.reach = |call, source| replaced(reach(call, source), Spot::Head, Some(Spot::Byte(0)));
  }),
  ("left at 0 reaches nothing", |rules| {
    rules.reach = |call, source| replaced(reach(call, source), Spot::Head, None);
  }),
  ("right at the end reaches nothing", |rules| {
    rules.reach = |call, source| replaced(reach(call, source), Spot::Tail, None);
  }),
  ("right at the end reaches the last byte", |rules| {
    rules.reach =
      |call, source| replaced(reach(call, source), Spot::Tail, Some(Spot::Byte(source - 1)));
  }),
  ("head and tail are the same", |rules| {
    rules.reach = |call, source| replaced(reach(call, source), Spot::Tail, Some(Spot::Head));
  }),
  ("an insertion of no text reaches nothing", |rules| {
    rules.reach = |call, source| match call {
      Call::Insert { text, .. } if text.is_empty() => Vec::new(),
      _ => reach(call, source),
    };
  }),
  ("an insertion at the front is apart from one at the back", |rules| {
    // Bytes far behind the source stand for what is reached from the front.
    rules.reach = |call, source| match call {
      Call::Insert { setting, .. } if setting.front => {
        let far = |spot| match spot {
          Spot::Head => Spot::Byte(100_000),
          Spot::Byte(at) => Spot::Byte(100_001 + at),
          Spot::Tail => Spot::Byte(200_000),
        };
        reach(call, source).into_iter().map(far).collect()
      }
      _ => reach(call, source),
    };
  }),
  ("a move reaches its range", |rules| {
    rules.reach = |call, source| match moved(call) {
      Some([start, end, _]) => (start..end.min(source)).map(Spot::Byte).collect(),
      None => reach(call, source),
    };
  }),
  ("a move reaches the byte that it goes to", |rules| {
    rules.reach = |call, source| match moved(call) {
      Some([_, _, to]) => vec![Spot::Byte(to)],
      None => reach(call, source),
    };
  }),
  // Moves.
  ("two moves", |rules| rules.moves = |_| true),
  ("a move in each list", |rules| {
    rules.moves = |calls| calls.iter().all(|list| moves(list) <= 1);
  }),
  ("two moves in one list", |rules| {
    rules.moves = |calls| calls.iter().filter(|list| moves(list) > 0).count() <= 1;
  }),
  ("no move", |rules| rules.moves = |calls| moves(&calls.concat()) == 0),
  ("no move in the second list", |rules| {
    rules.moves = |calls| moves(&calls.concat()) <= 1 && moves(&calls[1]) == 0;
  }),
  ("moves of no byte are not counted", |rules| {
    rules.moves = |calls| {
      let moves = calls.iter().flatten().filter_map(moved);
      moves.filter(|[start, end, _]| start != end).count() <= 1
    };
  }),
  // Moves beside replacements.
  ("a move may start inside a replacement", |rules| {
    rules.free = |[_, end, to], call| free(&[end, to], call);
  }),
  ("a move may end inside a replacement", |rules| {
    rules.free = |[start, _, to], call| free(&[start, to], call);
  }),
  ("a move may go into a replacement", |rules| {
    rules.free = |[start, end, _], call| free(&[start, end], call);
  }),
  ("a move may be inside a replacement by no text", |rules| {
    rules.free = |moved, call| call.text().is_some_and(<[u8]>::is_empty) || free(&moved, call);
  }),
  ("no position of a move at an edge of a replacement", |rules| {
    rules.free = |moved, call| match *call {
      Call::UpdateWith { start, end, .. } => moved.iter().all(|&at| at < start || at > end),
      _ => true,
    };
  }),
  ("a move may not be inside a removal", |rules| {
    rules.free = |moved, call| match *call {
      Call::Remove { start, end } => moved.iter().all(|&at| at <= start || at >= end),
      _ => free(&moved, call),
    };
  }),
  ("a move may not be inside a reset", |rules| {
    rules.free = |moved, call| match *call {
      Call::Reset { start, end } => moved.iter().all(|&at| at <= start || at >= end),
      _ => free(&moved, call),
    };
  }),
  ("a move of no byte may be inside a replacement", |rules| {
    rules.free = |moved, call| moved[0] == moved[1] || free(&moved, call);
  }),
  ("moves may be inside replacements", |rules| rules.free = |_, _| true),
];

fn is_wide(call: &Call) -> bool {
  range(call).is_none_or(|[start, end]| start < end)
}

fn is_within(call: &Call, source: u32) -> bool {
  call.positions().iter().all(|&at| at <= source)
}

fn moves(calls: &[Call]) -> usize {
  calls.iter().filter_map(moved).count()
}

/// The spots with one of them replaced, or left out.
fn replaced(spots: Vec<Spot>, old: Spot, new: Option<Spot>) -> Vec<Spot> {
  spots.into_iter().filter_map(|spot| if spot == old { new } else { Some(spot) }).collect()
}
