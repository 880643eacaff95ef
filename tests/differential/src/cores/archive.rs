//! The exported functions as a core.

use oracle::Call;

use super::{Core, Unseen};
use crate::{Answer, Lent, LentRecord, NoCalls, missing, sittings::reading::Reader};

#[derive(Debug, Clone, Copy)]
pub struct Archive;

impl Core for Archive {
  fn name(&self) -> &'static str {
    "archive"
  }

  fn call(&mut self, lent: &mut Lent, call: &Call, unseen: &Unseen, out: &mut [u8]) -> Answer {
    match *call {
      Call::Open { .. } => lent.open(),
      Call::Remove { start, end } => lent.remove(start, end),
      Call::UpdateWith { start, end, overwrite, ref text } => {
        lent.update_with(start, end, text, overwrite)
      }
      Call::Reset { start, end } => lent.reset(start, end),
      Call::Insert { at, ref text, setting } => {
        let [left, front] = unseen.switches(setting);
        lent.insert(at, text, left, front)
      }
      Call::Append { ref text } => lent.append(text),
      Call::Prepend { ref text } => lent.prepend(text),
      Call::Relocate { start, end, to } => lent.relocate(start, end, to),
      Call::Trim { pattern } => lent.trim(pattern),
      Call::TrimStart { pattern } => lent.trim_start(pattern),
      Call::TrimEnd { pattern } => lent.trim_end(pattern),
      Call::TrimLines => lent.trim_lines(),
      Call::IndentWith { indentor: Some(ref indentor), ref exclude } => {
        lent.indent_with(unseen.yes[0], indentor, exclude)
      }
      Call::IndentWith { indentor: None, ref exclude } => lent.indent_with(0, unseen.text, exclude),
      Call::Freeze { start, end } => {
        lent.freeze(&NoCalls::among(unseen.position).lend(), start, end)
      }
      Call::Slice { start, end: Some(end), .. } => lent.slice(start, unseen.yes[0], end, out),
      Call::Slice { start, end: None, .. } => lent.slice(start, 0, unseen.position, out),
      Call::ToString { .. } => lent.to_string(out),
      Call::LastLine { .. } => lent.last_line(out),
      Call::GetIndentString { .. } => lent.get_indent_string(out),
      Call::Len => lent.len(),
      Call::LenUtf16 => lent.len_utf16(),
      Call::LineCount => lent.line_count(),
      Call::IsEmpty => lent.is_empty(),
      Call::HasChanged => lent.has_changed(),
      Call::LastChar => lent.last_char(),
      Call::IsRangeWithinEditedChunk { start, end } => {
        lent.is_range_within_edited_chunk(start, end)
      }
      Call::Dump => unreachable!("a dump is no exported call"),
    }
  }

  fn has(&self, call: &Call) -> bool {
    missing::has(call)
  }

  fn well_formed(&mut self, lent: &Lent) -> Answer {
    lent.well_formed()
  }

  fn run_sheet(&mut self, lent: &mut Lent, answers: &mut [u8]) -> Option<Answer> {
    missing::has_function("run_sheet").then(|| lent.run_sheet(answers))
  }

  fn file(&mut self, lent: &mut Lent, record: &mut LentRecord, call: &[u8]) -> Option<Answer> {
    missing::has_function("file").then(|| lent.file(record, call))
  }

  fn withdraw(&mut self, lent: &mut Lent, record: &mut LentRecord, k: u32) -> Option<Answer> {
    missing::has_function("withdraw").then(|| lent.withdraw(record, k))
  }

  fn freeze(
    &mut self,
    lent: &mut Lent,
    record: &LentRecord,
    start: u32,
    end: u32,
  ) -> Option<Answer> {
    missing::has_function("freeze").then(|| lent.freeze(record, start, end))
  }

  fn set_marks(
    &mut self,
    source: &[u8],
    record: &mut LentRecord,
    k: u32,
    marks: u32,
  ) -> Option<Answer> {
    missing::has_function("set_marks").then(|| record.set_marks(source, k, marks))
  }

  fn show_entry(
    &mut self,
    source: &[u8],
    record: &LentRecord,
    reader: Reader,
    k: u32,
    out: &mut [u8],
  ) -> Option<Answer> {
    missing::has_function(reader.function()).then(|| match reader {
      Reader::Member => record.entry(source, k, out),
      Reader::Examiner => record.marked_entry(source, k, out),
    })
  }

  fn total(&mut self, source: &[u8], record: &LentRecord) -> Option<Answer> {
    missing::has_function("total").then(|| record.total(source))
  }

  fn join(&mut self, lent: &mut Lent, first: &[u8], second: &[u8]) -> Option<Answer> {
    missing::has_function("join").then(|| lent.join(first, second))
  }
}
