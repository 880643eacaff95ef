//! Calls on the Rust itself, without the oracle's numbers around it.

use std::hint::black_box;

use oracle::Call;
use string_wizard::{IndentOptions, MagicString, UpdateOptions};

use crate::timing::least;

/// A call whose text lives as long as the program, as a caller's source does: the
/// Rust then keeps it without a copy.
pub struct RustCall {
  call: Call,
  text: &'static str,
}

impl RustCall {
  pub fn new(call: &Call) -> Self {
    let text = String::from_utf8(call.text().unwrap_or_default().to_vec()).expect("UTF-8");
    Self { call: call.clone(), text: text.leak() }
  }

  /// Makes the call, which must be one that the Rust accepts.
  pub fn make(&self, desk: &mut MagicString<'static>) {
    let accepted = match self.call {
      Call::Remove { start, end } => desk.remove(start, end).is_ok(),
      Call::UpdateWith { start, end, overwrite, .. } => {
        let options = UpdateOptions { keep_original: false, overwrite: overwrite != 0 };
        desk.update_with(start, end, self.text, options).is_ok()
      }
      Call::Reset { start, end } => desk.reset(start, end).is_ok(),
      Call::Insert { at, setting, .. } => setting.insert(desk, at, self.text).is_ok(),
      Call::Relocate { start, end, to } => desk.relocate(start, end, to).is_ok(),
      Call::IndentWith { ref indentor, .. } => {
        let indentor = indentor.as_ref().map(|_| self.text);
        desk.indent_with(IndentOptions { indentor, exclude: &[] }).is_ok()
      }
      _ => {
        self.infallible(desk);
        true
      }
    };
    assert!(accepted, "the Rust refuses {}", self.call);
  }

  fn infallible(&self, desk: &mut MagicString<'static>) {
    let regex = |pattern: u32| Some(if pattern == 0 { "\\s" } else { "[\\r\\n]" });
    match self.call {
      Call::Append { .. } => see(desk.append(self.text)),
      Call::Prepend { .. } => see(desk.prepend(self.text)),
      Call::Trim { pattern } => see(desk.trim(regex(pattern))),
      Call::TrimStart { pattern } => see(desk.trim_start(regex(pattern))),
      Call::TrimEnd { pattern } => see(desk.trim_end(regex(pattern))),
      Call::TrimLines => see(desk.trim_lines()),
      Call::Slice { start, end, .. } => see(desk.slice(start, end)),
      Call::ToString { .. } => see(desk.to_string()),
      Call::LastLine { .. } => see(desk.last_line()),
      Call::GetIndentString { .. } => see(desk.get_indent_string().len()),
      Call::Len => see(desk.len()),
      Call::LenUtf16 => see(desk.len_utf16()),
      // There is no such call in the Rust (document 02, L3): its output is made and its
      // lines are counted.
      Call::LineCount => see(desk.to_string().lines().count()),
      Call::IsEmpty => see(desk.is_empty()),
      Call::HasChanged => see(desk.has_changed()),
      Call::LastChar => see(desk.last_char()),
      Call::IsRangeWithinEditedChunk { start, end } => {
        see(desk.is_range_within_edited_chunk(start, end))
      }
      _ => unreachable!("{} is not timed here", self.call),
    }
  }
}

/// Keeps what a call gives from being left out.
pub fn see<T>(value: T) {
  black_box(value);
}

/// Nanoseconds of an opening, of these calls, and of what is done with the desk at last.
pub fn anew(source: &str, calls: &[Call], last: impl Fn(MagicString<'static>)) -> f64 {
  let source: &'static str = source.to_string().leak();
  let calls: Vec<RustCall> = calls.iter().map(RustCall::new).collect();
  least(
    || (),
    |()| {
      let mut desk = MagicString::new(source);
      calls.iter().for_each(|call| call.make(&mut desk));
      last(desk);
    },
  )
}

/// Nanoseconds of these calls, on the desk that others leave of a fresh one.
pub fn made_behind(source: &str, others: &[Call], calls: &[Call]) -> f64 {
  let source: &'static str = source.to_string().leak();
  let [others, calls] =
    [others, calls].map(|calls| calls.iter().map(RustCall::new).collect::<Vec<_>>());
  let prepared = || {
    let mut desk = MagicString::new(source);
    others.iter().for_each(|call| call.make(&mut desk));
    desk
  };
  least(prepared, |desk| calls.iter().for_each(|call| call.make(desk)))
}

/// Nanoseconds of these calls on a fresh desk.
pub fn made(source: &str, calls: &[Call]) -> f64 {
  made_behind(source, &[], calls)
}

/// Nanoseconds of these calls on a fresh desk, each kept in a list.
pub fn kept(source: &str, calls: &[Call]) -> f64 {
  let source: &'static str = source.to_string().leak();
  let calls: Vec<RustCall> = calls.iter().map(RustCall::new).collect();
  least(
    || MagicString::new(source),
    |desk| {
      let mut kept = Vec::new();
      for call in &calls {
        call.make(desk);
        kept.push(call);
      }
      see(kept);
    },
  )
}
