use std::{error::Error, fmt};

use crate::Refusal;

/// Why [`Sitting::file`](crate::Sitting::file) did not do a call, and whether the call
/// is filed.
#[derive(Debug, Clone, Copy, PartialEq, Eq)]
pub enum FilingError {
  /// The call was refused, and is filed with this answer.
  Refused(Refusal),
  /// The call was not made and is not filed: the record would break its
  /// [limits](crate::Sitting).
  NotFiled,
}

impl FilingError {
  /// The refusal, which is [`Refusal::Limit`] for a call that is not filed.
  pub fn refusal(self) -> Refusal {
    match self {
      FilingError::Refused(refusal) => refusal,
      FilingError::NotFiled => Refusal::Limit,
    }
  }
}

impl fmt::Display for FilingError {
  fn fmt(&self, out: &mut fmt::Formatter) -> fmt::Result {
    match self {
      FilingError::Refused(refusal) => refusal.fmt(out),
      FilingError::NotFiled => out.pad("the record would break a limit, the call is not filed"),
    }
  }
}

impl Error for FilingError {}
