//! A core that makes each call on a painted stack and keeps the most that the calls
//! of each group used.

use std::collections::BTreeMap;

use differential::{
  Answer, Core, Lent, LentRecord, Unseen, cores::function, sittings::reading::Reader,
};
use oracle::Call;

use crate::painted::Painted;

/// The groups, in the order in which they are printed, each with its kind.
pub const GROUPS: [(&str, usize); 15] = [
  ("open", REPORT),
  ("well_formed", REPORT),
  ("remove, reset", EDIT),
  ("insert, append, prepend", EDIT),
  ("update_with", EDIT),
  ("relocate", EDIT),
  ("trim, trim_start, trim_end, trim_lines", EDIT),
  ("indent_with", EDIT),
  ("run_sheet", EDIT),
  ("file, withdraw", EDIT),
  ("freeze", EDIT),
  ("set_marks, entry, marked_entry, total", REPORT),
  ("join", JOIN),
  ("slice, to_string, last_line, get_indent_string", REPORT),
  (
    "len, len_utf16, line_count, is_empty, has_changed, last_char, is_range_within_edited_chunk",
    REPORT,
  ),
];

/// The kinds of which the header gives a figure, in its order: an edit, a join, the check
/// and a report.
const EDIT: usize = 0;
const JOIN: usize = 1;
const REPORT: usize = 2;

/// The most that a call of a group used, which call that was, and how many calls
/// were measured.
#[derive(Debug, Clone, Default)]
pub struct Most {
  pub bytes: usize,
  pub call: String,
  pub calls: u64,
}

#[derive(Clone)]
pub struct Measured<C> {
  core: C,
  stack: Painted,
  pub most: BTreeMap<&'static str, Most>,
}

impl<C: Core> Measured<C> {
  pub fn new(core: C) -> Self {
    Self { core, stack: Painted::new(), most: BTreeMap::new() }
  }

  /// Notes the stack of the call, which a core may not have.
  fn measured(
    &mut self,
    name: &str,
    mut call: impl FnMut(&mut C) -> Option<Answer>,
  ) -> Option<Answer> {
    let mut answer = None;
    let bytes = self.stack.used_by(|| answer = call(&mut self.core));
    if answer.is_some() {
      self.note(name, bytes);
    }
    answer
  }

  fn note(&mut self, name: &str, bytes: usize) {
    let of_group = |(group, _): &(&str, usize)| group.split(", ").any(|member| member == name);
    let (group, _) =
      GROUPS.into_iter().find(of_group).unwrap_or_else(|| panic!("{name} has no group"));
    let most = self.most.entry(group).or_default();
    most.calls += 1;
    if bytes > most.bytes {
      (most.bytes, most.call) = (bytes, name.to_string());
    }
  }
}

impl<C: Core> Core for Measured<C> {
  fn name(&self) -> &'static str {
    self.core.name()
  }

  fn call(&mut self, lent: &mut Lent, call: &Call, unseen: &Unseen, out: &mut [u8]) -> Answer {
    let mut answer = Answer::NO_DESK;
    let bytes = self.stack.used_by(|| answer = self.core.call(lent, call, unseen, out));
    self.note(&function(call), bytes);
    answer
  }

  fn has(&self, call: &Call) -> bool {
    self.core.has(call)
  }

  fn well_formed(&mut self, lent: &Lent) -> Answer {
    let mut answer = Answer::NO_DESK;
    let bytes = self.stack.used_by(|| answer = self.core.well_formed(lent));
    self.note("well_formed", bytes);
    answer
  }

  fn run_sheet(&mut self, lent: &mut Lent, answers: &mut [u8]) -> Option<Answer> {
    self.measured("run_sheet", |core| core.run_sheet(lent, answers))
  }

  fn file(&mut self, lent: &mut Lent, record: &mut LentRecord, call: &[u8]) -> Option<Answer> {
    self.measured("file", |core| core.file(lent, record, call))
  }

  fn withdraw(&mut self, lent: &mut Lent, record: &mut LentRecord, k: u32) -> Option<Answer> {
    self.measured("withdraw", |core| core.withdraw(lent, record, k))
  }

  fn freeze(
    &mut self,
    lent: &mut Lent,
    record: &LentRecord,
    start: u32,
    end: u32,
  ) -> Option<Answer> {
    self.measured("freeze", |core| core.freeze(lent, record, start, end))
  }

  fn set_marks(
    &mut self,
    source: &[u8],
    record: &mut LentRecord,
    k: u32,
    marks: u32,
  ) -> Option<Answer> {
    self.measured("set_marks", |core| core.set_marks(source, record, k, marks))
  }

  fn show_entry(
    &mut self,
    source: &[u8],
    record: &LentRecord,
    reader: Reader,
    k: u32,
    out: &mut [u8],
  ) -> Option<Answer> {
    self.measured(reader.function(), |core| core.show_entry(source, record, reader, k, out))
  }

  fn total(&mut self, source: &[u8], record: &LentRecord) -> Option<Answer> {
    self.measured("total", |core| core.total(source, record))
  }

  fn join(&mut self, lent: &mut Lent, first: &[u8], second: &[u8]) -> Option<Answer> {
    self.measured("join", |core| core.join(lent, first, second))
  }
}
