//! Calls one after another on the desk that the last accepted opening made.

use crate::{Answer, Call, Desk, Limits, apply, number};

#[derive(Debug, Clone)]
pub struct Script {
  limits: Limits,
  desk: Option<Desk>,
}

impl Script {
  pub fn new(limits: Limits) -> Self {
    Self { limits, desk: None }
  }

  pub fn desk(&self) -> Option<&Desk> {
    self.desk.as_ref()
  }

  /// The call's answer; none where there is no desk yet.
  pub fn call(&mut self, call: &Call) -> Option<Answer> {
    match (&mut self.desk, call) {
      (Some(desk), _) => Some(apply(desk, call)),
      (None, Call::Open { source }) => match Desk::open(self.limits, source) {
        Ok(desk) => {
          self.desk = Some(desk);
          Some(Answer::number(number::ACCEPTED))
        }
        Err(number) => Some(Answer::number(number)),
      },
      (None, _) => None,
    }
  }
}
