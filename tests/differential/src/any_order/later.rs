//! Later calls: what a list of edits left is lent to them, with the same
//! arguments and buffers after each order.

use std::fmt;

use oracle::{Answer as Expected, Call, Desk, apply, random::Random};

use crate::{
  Answer, Core, Image, Made, Unseen,
  joins::{Lists, reading},
  layout::{MOST_BYTES, MOST_SOURCE},
  out::Out,
  step::room,
};

/// A call with all that it is lent beside the desk.
#[derive(Debug, Clone)]
pub struct Later {
  pub asked: Asked,
  unseen: Unseen,
  room: usize,
  seed: u64,
}

/// What is called: one of document 01's calls, or the join of two lists.
#[derive(Debug, Clone)]
pub enum Asked {
  Call(Call),
  Join(Lists),
}

/// What is seen of a call outside the desk: its number, what it reports, and the
/// whole buffer, with the bytes beside it, after the call.
#[derive(Debug, Clone, PartialEq, Eq)]
pub struct Seen {
  pub answer: Answer,
  pub buffer: Vec<u8>,
}

impl Later {
  /// The call on this desk. The buffer's length is the call's, or one that is long
  /// enough there.
  pub fn new(made: Made, desk: &Desk) -> Self {
    let mut random = Random::new(made.seed);
    let unseen = Unseen::any(&mut random);
    let expected = apply(&mut desk.clone(), &made.call);
    let room = room(&made.call, &expected, &mut random);
    Self { asked: Asked::Call(made.call), unseen, room, seed: random.number() }
  }

  /// The join of these lists, which is lent no buffer.
  pub fn join(lists: Lists, seed: u64) -> Self {
    Self { asked: Asked::Join(lists), unseen: Unseen::PLAIN, room: 0, seed }
  }

  /// `to_string` into a buffer that is long enough for any desk.
  pub fn text(seed: u64) -> Self {
    let asked = Asked::Call(Call::ToString { room: None });
    Self { asked, unseen: Unseen::PLAIN, room: MOST_SOURCE + MOST_BYTES, seed }
  }

  fn buffer(&self) -> Out {
    Out::new(self.room, &mut Random::new(self.seed))
  }

  /// What the oracle shows on its desk.
  pub fn expected(&self, desk: &mut Desk) -> Seen {
    let Expected { number, value, bytes } = match &self.asked {
      Asked::Join(lists) => reading::join(Some(desk), lists.slices()),
      Asked::Call(call) => {
        let mut call = call.clone();
        if let Some(room) = call.room_mut() {
          *room = Some(self.room as u32);
        }
        apply(desk, &call)
      }
    };
    let mut out = self.buffer();
    out.lend()[..bytes.len()].copy_from_slice(&bytes);
    Seen { answer: Answer { number, value }, buffer: out.all().to_vec() }
  }

  /// What the core shows on its memory; none where it has no such call.
  pub fn make(&self, core: &mut impl Core, image: &mut Image) -> Option<Seen> {
    let mut out = self.buffer();
    let answer = match &self.asked {
      Asked::Join(Lists { first, second }) => core.join(&mut image.lend(), first, second)?,
      Asked::Call(call) => {
        core.has(call).then(|| core.call(&mut image.lend(), call, &self.unseen, out.lend()))?
      }
    };
    Some(Seen { answer, buffer: out.all().to_vec() })
  }
}

impl fmt::Display for Asked {
  fn fmt(&self, out: &mut fmt::Formatter) -> fmt::Result {
    match self {
      Asked::Call(call) => write!(out, "{call}"),
      Asked::Join(lists) => write!(out, "join\n{lists}"),
    }
  }
}

impl Seen {
  /// What differs, if anything does.
  pub fn same_as(&self, expected: &Seen) -> Result<(), String> {
    if self.answer != expected.answer {
      let (answer, expected) = (self.answer, expected.answer);
      return Err(format!("{answer:?}, not {expected:?}"));
    }
    if self.buffer != expected.buffer {
      return Err("the buffer holds other bytes".to_string());
    }
    Ok(())
  }
}
