use crate::{Refusal, ffi::Answered, layout::*};

/// A buffer for the last entry that was read.
#[derive(Default)]
pub struct Reading(Vec<u8>);

impl Reading {
  /// What a call writes: no record with an answer and marks is longer than the buffer that
  /// it gets.
  pub fn read(&mut self, call: impl FnOnce(&mut [u8]) -> Answered) -> Result<&[u8], Refusal> {
    let Self(out) = self;
    out.resize(RECORD_FRONT + RECORD_TEXT + 2, 0);
    let written = call(out)?;
    Ok(&out[..written as usize])
  }
}
