//! The comparison of orders tells what it should: lists that fail one check of
//! docs/ANY-ORDER.md, that page's smallest ones among them, and cores that are
//! wrong in one way.

use std::{collections::BTreeSet, time::Duration};

use differential::{
  Answer, Core, Lent, Unseen,
  any_order::{
    CHECKS, Check, Compared, Premises, Sitting, Start, Tally, UNTOLD, compare, orders, run::run,
  },
  cores::StandIn,
  image,
  layout::*,
};
use oracle::{Call, DeskData, parse, random::Random};

/// Makes the call in place of the stand-in.
type Fault = fn(&mut StandIn, &mut Lent, &Call, &Unseen, &mut [u8]) -> Answer;

#[derive(Clone)]
struct Wrong {
  right: StandIn,
  fault: Fault,
}

impl Core for Wrong {
  fn name(&self) -> &'static str {
    "wrong"
  }

  fn call(&mut self, lent: &mut Lent, call: &Call, unseen: &Unseen, out: &mut [u8]) -> Answer {
    match call {
      Call::Open { .. } => self.right.call(lent, call, unseen, out),
      _ => (self.fault)(&mut self.right, lent, call, unseen, out),
    }
  }

  fn well_formed(&mut self, lent: &Lent) -> Answer {
    self.right.well_formed(lent)
  }

  fn join(&mut self, lent: &mut Lent, first: &[u8], second: &[u8]) -> Option<Answer> {
    self.right.join(lent, first, second)
  }
}

/// What a join does behind the right one.
type JoinFault = fn(&mut Lent, &mut Answer);

/// Right but for its joins.
#[derive(Clone)]
struct WrongJoin {
  right: StandIn,
  fault: JoinFault,
}

impl Core for WrongJoin {
  fn name(&self) -> &'static str {
    "wrong joins"
  }

  fn call(&mut self, lent: &mut Lent, call: &Call, unseen: &Unseen, out: &mut [u8]) -> Answer {
    self.right.call(lent, call, unseen, out)
  }

  fn well_formed(&mut self, lent: &Lent) -> Answer {
    self.right.well_formed(lent)
  }

  fn join(&mut self, lent: &mut Lent, first: &[u8], second: &[u8]) -> Option<Answer> {
    let mut answer = self.right.join(lent, first, second)?;
    (self.fault)(lent, &mut answer);
    Some(answer)
  }
}

const JOIN_FAULTS: [(&str, &str, JoinFault); 3] = [
  ("a join tells a row", "later, join", |lent, answer| {
    if answer.number == 0 {
      answer.value = lent.chunks[NEXT];
    }
  }),
  ("a refused join tells a place in the store", "later, join", |lent, answer| {
    if answer.number == 18 {
      answer.value = lent.store[0].into();
    }
  }),
  ("a join drops the head", "behind the later calls, the desk is", |lent, answer| {
    if answer.number == 0 {
      change(lent, |desk| desk.head.clear());
    }
  }),
];

/// A wrong core, and where it is told.
const FAULTS: [(&str, &str, Fault); 9] = [
  ("an insertion goes to the other end of its list", "the desk is", |right, lent, call, _, out| {
    right.call(lent, &other_end(call), &Unseen::PLAIN, out)
  }),
  ("an edit on a desk in use is only acknowledged", "the desk is", |right, lent, call, _, out| {
    let listed = !matches!(call, Call::Trim { .. } | Call::IndentWith { .. });
    if call.is_edit() && listed && in_use(&desk(lent)) {
      return Answer::ACCEPTED;
    }
    right.call(lent, call, &Unseen::PLAIN, out)
  }),
  ("a removal takes the pieces beside it", "the desk is", |right, lent, call, unseen, out| {
    let answer = right.call(lent, call, unseen, out);
    if let (Call::Remove { start, .. }, Answer { number: 0, .. }) = (call, answer) {
      change(lent, |desk| {
        let beside = desk.chunks.iter_mut().filter(|chunk| chunk.end == *start);
        beside.for_each(|chunk| chunk.outro.clear());
      });
    }
    answer
  }),
  ("a desk must not reach its limits", "number: 13", |right, lent, call, unseen, out| {
    let answer = right.call(lent, call, unseen, out);
    let bytes = |desk: &DeskData| texts(desk).iter().map(|text| text.len()).sum::<usize>();
    if call.is_edit() && answer.number == 0 && bytes(&desk(lent)) == MOST_BYTES {
      return Answer { number: 13, value: 0 };
    }
    answer
  }),
  (
    "an edit reports no cuts",
    "not Answer { number: 0, value: ",
    |right, lent, call, unseen, out| {
      let answer = right.call(lent, call, unseen, out);
      if call.is_edit() { Answer { value: 0, ..answer } } else { answer }
    },
  ),
  ("the text is written in the order of rows", "the text: ", |right, lent, call, unseen, out| {
    if !matches!(call, Call::ToString { .. }) {
      return right.call(lent, call, unseen, out);
    }
    let mut copy = lent.chunks.to_vec();
    link_by_rows(&mut copy);
    let (chunks, pieces, store) = (&mut copy[..], &mut *lent.pieces, &mut *lent.store);
    right.call(&mut Lent { source: lent.source, chunks, pieces, store }, call, unseen, out)
  }),
  ("a report tells a row", "later, has_changed", |right, lent, call, unseen, out| {
    match (call, right.call(lent, call, unseen, out)) {
      (Call::HasChanged, Answer { number: 0, .. }) => {
        Answer { number: 0, value: lent.chunks[NEXT] }
      }
      (_, answer) => answer,
    }
  }),
  ("a refused report writes to its buffer", "the buffer", |right, lent, call, unseen, out| {
    let answer = right.call(lent, call, unseen, out);
    if answer.number == 14 {
      out.fill(lent.store[0]);
    }
    answer
  }),
  ("bytes behind the text are written", "the buffer", |right, lent, call, unseen, out| {
    let answer = right.call(lent, call, unseen, out);
    if let (Call::Slice { .. }, Some(byte)) = (call, out.get_mut(answer.value as usize)) {
      *byte = lent.store[0];
    }
    answer
  }),
];

/// The same insertion at the other end of its list.
fn other_end(call: &Call) -> Call {
  let mut call = call.clone();
  if let Call::Insert { setting, .. } = &mut call {
    setting.front = !setting.front;
  }
  call
}

fn desk(lent: &Lent) -> DeskData {
  image::decode(lent.source, lent.chunks, lent.pieces, lent.store)
}

/// The pieces and replacements of a desk.
fn texts(desk: &DeskData) -> Vec<&String> {
  let chunks = desk.chunks.iter();
  let chunks =
    chunks.flat_map(|chunk| chunk.intro.iter().chain(&chunk.outro).chain(&chunk.edited_content));
  desk.head.iter().chain(&desk.tail).chain(chunks).collect()
}

fn in_use(desk: &DeskData) -> bool {
  desk.chunks.len() > 1 || !texts(desk).is_empty()
}

/// Lays the desk out anew, changed.
fn change(lent: &mut Lent, change: impl Fn(&mut DeskData)) {
  let mut desk = desk(lent);
  change(&mut desk);
  let image = image::encode(&desk, &mut Random::new(1));
  lent.chunks.copy_from_slice(&image.chunks);
  lent.pieces.copy_from_slice(&image.pieces);
  lent.store.copy_from_slice(&image.store);
}

/// Links the chunks one behind the other by the numbers of their rows.
fn link_by_rows(chunks: &mut [u32]) {
  let count = chunks[START];
  for row in 0..=count {
    let next = if row == count { 0 } else { row + 1 };
    chunks[row as usize * ROW + NEXT] = next;
    chunks[next as usize * ROW + PREV] = row;
  }
}

#[test]
fn wrong_cores_are_told() {
  for (name, where_told, fault) in FAULTS {
    let mut core = Wrong { right: StandIn::new(1), fault };
    let Compared { tally, different } = compare(&mut core, None, 3, 2_000, Duration::MAX);
    let (sitting, found) = different.unwrap_or_else(|| panic!("not told: {name}"));
    println!("{name}: {} lists", tally.lists);
    assert!(found.what.contains(where_told), "{name}: {}", found.what);
    let edits = sitting.list.len();
    assert!(edits <= 2 || !found.what.starts_with("the desk"), "{name}: {edits} edits");
  }
}

/// Joins are among the later calls.
#[test]
fn wrong_joins_are_told() {
  for (name, where_told, fault) in JOIN_FAULTS {
    let mut core = WrongJoin { right: StandIn::new(1), fault };
    let Compared { tally, different } = compare(&mut core, None, 3, 2_000, Duration::MAX);
    let (_, found) = different.unwrap_or_else(|| panic!("not told: {name}"));
    println!("{name}: {} lists", tally.lists);
    assert!(found.what.contains(where_told), "{name}: {}", found.what);
  }
}

/// The list of docs/ANY-ORDER.md that fails this check alone: a source, calls that
/// bring the desk into use, and the two edits.
fn smallest(check: Check) -> (&'static str, Vec<&'static str>, [String; 2]) {
  let line = |line: &str| line.to_string();
  let long = |name: &str| format!("{name} {}", "78".repeat(MOST_BYTES / 2 + 1));
  match check {
    1 => ("", vec![], [line("append_left 0 78"), line("append_right 0 79")]),
    2 => ("a", vec![], [line("trim 0"), line("append_left 1 20")]),
    3 => ("a", vec![], [line("remove 1 1"), line("append_left 1 78")]),
    4 => ("a", vec![], [line("append_left 2 78"), line("append_left 3 79")]),
    5 => ("a", vec![], [line("append_left 1 78"), line("append_left 1 79")]),
    6 => ("abc", vec![], [line("relocate 0 1 3"), line("relocate 1 2 0")]),
    7 => ("ab", vec![], [line("update_with 0 2 0 58"), line("relocate 0 1 2")]),
    8 => ("abc", vec!["relocate 1 2 3"], [line("update_with 0 2 0 58"), line("relocate 2 3 0")]),
    _ => ("a", vec![], [long("prepend"), long("append")]),
  }
}

fn call(line: &str) -> Call {
  parse(line).unwrap().expect("a call")
}

#[test]
fn the_smallest_lists_that_fail_a_check_are_told() {
  for check in CHECKS {
    let (source, before, edits) = smallest(check);
    let calls = before.into_iter().map(call).collect();
    let start = Start::Opened { source: source.as_bytes().to_vec(), calls };
    let list: Vec<Call> = edits.iter().map(|line| call(line)).collect();
    assert_eq!(Premises::on(&start.desk()).failed(&list), BTreeSet::from([check]));
    let orders = orders(list.len(), &mut Random::new(1));
    let sitting = Sitting { start, list, orders, later: Vec::new(), seed: 1 };
    let told = run(&mut StandIn::new(1), &sitting, &mut Tally::default()).is_err();
    assert_eq!(told, !UNTOLD.contains(&check), "check {check}");
  }
}

/// That page's list in which the edit that comes first makes the cut, and the other finds
/// an edge.
#[test]
fn an_edit_of_a_list_may_cut_otherwise_in_another_order() {
  let start = Start::Opened { source: b"ab".to_vec(), calls: Vec::new() };
  let list = ["append_left 1 78", "append_right 1 79"].map(call).to_vec();
  assert_eq!(Premises::on(&start.desk()).failed(&list), BTreeSet::new());
  let orders = orders(list.len(), &mut Random::new(1));
  let sitting = Sitting { start, list, orders, later: Vec::new(), seed: 1 };
  let mut tally = Tally::default();
  run(&mut StandIn::new(1), &sitting, &mut tally).unwrap();
  assert_eq!((tally.orders, tally.cut_otherwise), (2, 1));
}

#[test]
fn random_lists_that_fail_a_check_are_told() {
  for check in CHECKS {
    let compared = compare(&mut StandIn::new(2), Some(check), 2, 300, Duration::MAX);
    assert_eq!(compared.different.is_some(), !UNTOLD.contains(&check), "check {check}");
  }
}

/// No order differs where every check is passed, and the lists are of every kind.
#[test]
fn no_order_differs() {
  let compared = compare(&mut StandIn::new(3), None, 3, 700, Duration::MAX);
  if let Some((sitting, found)) = compared.different {
    panic!("{sitting}{:?}: {}", found.order, found.what);
  }
  assert_eq!(compared.tally.missing(), Vec::<String>::new());
}
