//! What is compared: a core makes document 01's calls on lent memory.

#[cfg(feature = "archive")]
mod archive;
#[cfg(feature = "inner")]
mod inner;
mod noting;
mod stand_in;
mod unseen;

#[cfg(feature = "archive")]
pub use archive::Archive;
#[cfg(feature = "inner")]
pub use inner::{Inner, List, inner_answer};
pub use noting::{Noted, Noting};
use oracle::Call;
pub use stand_in::StandIn;
pub use unseen::Unseen;

use crate::{Answer, Lent, LentRecord, Sizes, holds_desk, sittings::reading::Reader};

pub trait Core {
  /// For the printed report.
  fn name(&self) -> &'static str;

  /// Makes the call. An opening's source is the lent one, a buffer is `out`, a freezing
  /// gets a record without calls, and `Dump`, which is no exported call, is never asked for.
  fn call(&mut self, lent: &mut Lent, call: &Call, unseen: &Unseen, out: &mut [u8]) -> Answer;

  /// Whether there is such a call: a core that is not complete lacks some.
  fn has(&self, _call: &Call) -> bool {
    true
  }

  /// 0 for a desk that is well formed, else 2.
  fn well_formed(&mut self, lent: &Lent) -> Answer;

  /// Whether the core takes desks of these sizes: exported calls take the full.
  fn takes(&self, sizes: Sizes) -> bool {
    sizes == Sizes::FULL
  }

  /// Makes edits one behind the other: as one list, where the core takes such.
  fn list(&mut self, lent: &mut Lent, calls: &[&Call], unseen: &Unseen) -> Vec<Answer> {
    calls.iter().map(|call| self.call(lent, call, unseen, &mut [])).collect()
  }

  /// Runs the sheet that is lent in the source's place. None where the core runs no
  /// sheets.
  fn run_sheet(&mut self, _lent: &mut Lent, _answers: &mut [u8]) -> Option<Answer> {
    None
  }

  /// Makes a call and files it in the record. None where the core files no calls.
  fn file(&mut self, _lent: &mut Lent, _record: &mut LentRecord, _call: &[u8]) -> Option<Answer> {
    None
  }

  /// Takes the k-th call out of the record. None where the core withdraws no calls.
  fn withdraw(&mut self, _lent: &mut Lent, _record: &mut LentRecord, _k: u32) -> Option<Answer> {
    None
  }

  /// Freezes the bytes from start up to end. None where the core freezes nothing.
  fn freeze(
    &mut self,
    _lent: &mut Lent,
    _record: &LentRecord,
    _start: u32,
    _end: u32,
  ) -> Option<Answer> {
    None
  }

  /// Writes the marks of the k-th entry of a record beside a desk over this source. None
  /// where the core marks no calls.
  fn set_marks(
    &mut self,
    _source: &[u8],
    _record: &mut LentRecord,
    _k: u32,
    _marks: u32,
  ) -> Option<Answer> {
    None
  }

  /// Writes what the reader sees of the k-th entry. None where the core shows no entries.
  fn show_entry(
    &mut self,
    _source: &[u8],
    _record: &LentRecord,
    _reader: Reader,
    _k: u32,
    _out: &mut [u8],
  ) -> Option<Answer> {
    None
  }

  /// The sum of all marks. None where the core has no total.
  fn total(&mut self, _source: &[u8], _record: &LentRecord) -> Option<Answer> {
    None
  }

  /// Makes the calls of both lists, if they may be joined. None where the core joins no
  /// lists.
  fn join(&mut self, _lent: &mut Lent, _first: &[u8], _second: &[u8]) -> Option<Answer> {
    None
  }
}

/// The exported function that makes the call, without its prefix: the first word of the
/// call's line, but that one function makes all insertions.
pub fn function(call: &Call) -> String {
  match call {
    Call::Insert { .. } => "insert".to_string(),
    _ => call.to_string().split(' ').next().unwrap_or_default().to_string(),
  }
}

/// What `Core::well_formed` must answer.
pub fn verdict(core: &impl Core, lent: &Lent) -> Answer {
  let taken = lent.sizes().is_some_and(|sizes| core.takes(sizes));
  let holds = taken && holds_desk(lent.source, lent.chunks, lent.pieces, lent.store);
  if holds { Answer::ACCEPTED } else { Answer::NO_DESK }
}

/// The core of this build: the archive where it is linked, else the stand-in.
#[cfg(feature = "archive")]
pub type Chosen = Archive;
/// The core of this build: the archive where it is linked, else the stand-in.
#[cfg(not(feature = "archive"))]
pub type Chosen = StandIn;

#[cfg(feature = "archive")]
pub fn chosen(_seed: u64) -> Chosen {
  Archive
}

#[cfg(not(feature = "archive"))]
pub fn chosen(seed: u64) -> Chosen {
  StandIn::new(seed)
}

/// The core for desks of any size: the inner functions where they are linked, else
/// the stand-in.
#[cfg(feature = "inner")]
pub fn chosen_inner(_seed: u64) -> Inner {
  Inner
}

/// The core for desks of any size: the inner functions where they are linked, else
/// the stand-in.
#[cfg(not(feature = "inner"))]
pub fn chosen_inner(seed: u64) -> StandIn {
  StandIn::of_any_size(seed)
}
