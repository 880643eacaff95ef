//! Cores that take the switches of an insertion otherwise are caught.

use std::time::Duration;

use differential::{
  Answer, Core, Lent, Unseen,
  compare::{Compared, compare},
  cores::StandIn,
};
use oracle::{Call, PREPEND_RIGHT, Setting};

/// What a core takes the two numbers for.
type Reading = fn([u32; 2]) -> Setting;

#[derive(Clone)]
struct Reader {
  right: StandIn,
  reading: Reading,
}

impl Core for Reader {
  fn name(&self) -> &'static str {
    "reader"
  }

  fn call(&mut self, lent: &mut Lent, call: &Call, unseen: &Unseen, out: &mut [u8]) -> Answer {
    let mut call = call.clone();
    if let Call::Insert { setting, .. } = &mut call {
      *setting = (self.reading)(unseen.switches(*setting));
    }
    self.right.call(lent, &call, unseen, out)
  }

  fn well_formed(&mut self, lent: &Lent) -> Answer {
    self.right.well_formed(lent)
  }
}

/// Any number but 0 is yes.
fn right(numbers: [u32; 2]) -> Setting {
  setting(numbers, |number| number != 0)
}

fn setting(numbers: [u32; 2], is_yes: fn(u32) -> bool) -> Setting {
  let [left, front] = numbers.map(is_yes);
  Setting { left, front }
}

const WRONG: [(&str, Reading); 8] = [
  ("the switches are exchanged", |[left, front]| right([front, left])),
  ("left is right", |[left, front]| right([(left == 0) as u32, front])),
  ("front is back", |[left, front]| right([left, (front == 0) as u32])),
  ("left goes to the front of the intro", |[left, front]| {
    if left != 0 { PREPEND_RIGHT } else { right([left, front]) }
  }),
  ("right goes to the other end of its list", |[left, front]| {
    if left != 0 { right([left, front]) } else { right([left, (front == 0) as u32]) }
  }),
  ("only 1 says yes", |numbers| setting(numbers, |number| number == 1)),
  ("only the low byte is looked at", |numbers| setting(numbers, |number| number as u8 != 0)),
  ("two numbers that say yes must be the same", |[left, front]| {
    if left != 0 && front != left { right([left, 0]) } else { right([left, front]) }
  }),
];

fn compared(reading: Reading) -> Compared {
  compare(&mut Reader { right: StandIn::new(1), reading }, 9, 20_000, Duration::MAX)
}

#[test]
fn wrong_switches_are_caught() {
  for (name, reading) in WRONG {
    let Compared { tally, different } = compared(reading);
    println!("{name}: {} calls", tally.calls);
    let (paper, found) = different.unwrap_or_else(|| panic!("not caught: {name}"));
    let last = paper.calls.last().map(|made| &made.call);
    assert!(matches!(last, Some(Call::Insert { .. })), "{name}\n{paper}{}", found.what);
    assert!(paper.calls.len() <= 2, "{name}\n{paper}");
  }
}

#[test]
fn right_switches_are_not() {
  if let Some((paper, found)) = compared(right).different {
    panic!("{paper}{}", found.what);
  }
}
