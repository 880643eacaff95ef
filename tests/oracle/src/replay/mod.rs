//! The file that crates/replay replays: calls with the oracle's answers, one
//! record to a line, always the same. crates/replay/README.md describes it.

mod aimed;
mod damage;
mod digest;
mod lines;
mod record;
mod sample;
mod text;

use std::collections::BTreeMap;

use crate::{Answer, Call, Limits, Script, keeps, number};
use record::{Record, Tables};

/// The whole file.
pub fn file() -> String {
  let mut writer = Writer::new();
  aimed::papers(&mut writer);
  damage::papers(&mut writer);
  sample::papers(&mut writer);
  // Last: what the sample takes depends on what is written before it.
  lines::papers(&mut writer);
  format!("{HEAD}# {} calls\n{}", writer.calls, writer.lines)
}

const HEAD: &str = "\
# Calls with the answers of string_wizard 1.2.16, made by tests/oracle (program replay).
# NAME NUMBERS TEXT ROOM = NUMBER VALUE BYTES TABLES: see README.md beside this file.
";

/// Makes calls on the oracle's desk and writes a record for each.
struct Writer {
  script: Script,
  lines: String,
  calls: usize,
  /// Whether the last opening was accepted.
  opened: bool,
  /// How often each call had each number.
  met: BTreeMap<(String, u32), usize>,
}

impl Writer {
  fn new() -> Self {
    let script = Script::new(Limits::FULL);
    Self { script, lines: String::new(), calls: 0, opened: false, met: BTreeMap::new() }
  }

  /// Makes the call, and writes it with its answer and the tables after it.
  fn call(&mut self, call: &Call) {
    let answer = self.script.call(call).expect("papers begin with an opening");
    if matches!(call, Call::Open { .. }) {
      self.opened = answer.number == number::ACCEPTED;
    } else {
      assert!(self.opened, "{call} follows a refused opening, whose source is in use");
    }
    let tables = match self.script.desk() {
      Some(desk) if !keeps::every_byte(call, answer.number) => {
        Tables::Digest(digest::digest(&desk.data()))
      }
      _ => Tables::Kept,
    };
    self.count(&Record::of(call, &answer, tables));
  }

  /// Writes the call as one that finds no desk: 2, and every byte kept.
  fn no_desk(&mut self, call: &Call) {
    self.count(&Record::of(call, &Answer::number(number::NOT_WELL_FORMED), Tables::Kept));
  }

  /// The exported check by itself.
  fn well_formed(&mut self, number: u32) {
    self.count(&Record::well_formed(number));
  }

  /// Writes a call's record.
  fn count(&mut self, record: &Record) {
    *self.met.entry((record.name.clone(), record.number)).or_default() += 1;
    self.record(record);
    self.calls += 1;
  }

  fn record(&mut self, record: &Record) {
    self.lines += &record.to_string();
    self.lines.push('\n');
  }
}
