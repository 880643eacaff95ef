//! Document 02's L1 read plainly: what a sheet says, what a run of it answers and
//! leaves, and what the program prints. It is written to be read beside the request,
//! not to be fast.

use oracle::{Call, Desk, Limits, SETTINGS, apply, number};

pub const MOST_RECORDS: usize = 200;
pub const MOST_SHEET: usize = 57_344;

/// What a sheet says that keeps the rules: the source, and each record's kind and
/// call.
#[derive(Debug, Clone, PartialEq, Eq)]
pub struct Sheet {
  pub source: Vec<u8>,
  pub records: Vec<(u8, Call)>,
}

/// "A version byte 1, a 16-bit source length, the source, then records." None where
/// the sheet breaks a rule.
pub fn read(sheet: &[u8]) -> Option<Sheet> {
  let mut rest = Rest(sheet);
  let [version] = rest.bytes()?;
  let source_len = rest.length()?;
  let source = rest.take(source_len)?.to_vec();
  let records = records(rest.0)?;
  let holds = version == 1 && records.len() <= MOST_RECORDS && sheet.len() <= MOST_SHEET;
  holds.then_some(Sheet { source, records })
}

/// Whole records up to the end. None where one breaks a rule.
pub fn records(bytes: &[u8]) -> Option<Vec<(u8, Call)>> {
  let mut rest = Rest(bytes);
  let mut records = Vec::new();
  while !rest.0.is_empty() {
    let len = rest.length()?;
    records.push(record(rest.take(len)?)?);
  }
  Some(records)
}

/// What stands behind a record's length: "a kind byte, 32-bit positions, then text".
fn record(record: &[u8]) -> Option<(u8, Call)> {
  let mut rest = Rest(record);
  let [kind] = rest.bytes()?;
  // Fields are read in the order in which they are written here.
  let call = match kind {
    1 => Call::Remove { start: rest.position()?, end: rest.position()? },
    2 => Call::UpdateWith {
      start: rest.position()?,
      end: rest.position()?,
      overwrite: 1,
      text: rest.text(),
    },
    3 => Call::Reset { start: rest.position()?, end: rest.position()? },
    4..=7 => Call::Insert {
      at: rest.position()?,
      text: rest.text(),
      setting: SETTINGS[usize::from(kind) - 4],
    },
    8 => Call::Relocate { start: rest.position()?, end: rest.position()?, to: rest.position()? },
    _ => return None,
  };
  rest.0.is_empty().then_some((kind, call))
}

/// The bytes still to be read.
struct Rest<'a>(&'a [u8]);

impl<'a> Rest<'a> {
  fn take(&mut self, len: usize) -> Option<&'a [u8]> {
    let (taken, rest) = self.0.split_at_checked(len)?;
    self.0 = rest;
    Some(taken)
  }

  fn bytes<const LEN: usize>(&mut self) -> Option<[u8; LEN]> {
    self.take(LEN)?.try_into().ok()
  }

  fn length(&mut self) -> Option<usize> {
    self.bytes().map(u16::from_be_bytes).map(usize::from)
  }

  fn position(&mut self) -> Option<u32> {
    self.bytes().map(u32::from_be_bytes)
  }

  /// All that is left.
  fn text(&mut self) -> Vec<u8> {
    std::mem::take(&mut self.0).to_vec()
  }
}

/// A run that was opened: the sheet, each record's answer, and the desk behind the
/// last.
#[derive(Debug, Clone)]
pub struct Ran {
  pub sheet: Sheet,
  pub answers: Vec<u8>,
  pub desk: Desk,
}

/// Runs the sheet on tables of the full lengths or of others, with room for so many
/// answers; or the number with which nothing is done.
pub fn run(sheet: &[u8], full_tables: bool, room: usize) -> Result<Ran, u32> {
  if !full_tables {
    return Err(number::NOT_WELL_FORMED);
  }
  let sheet = read(sheet).ok_or(number::BAD_SHEET)?;
  let mut desk = Desk::open(Limits::FULL, &sheet.source)?;
  if room < sheet.records.len() {
    return Err(number::SHORT_BUFFER);
  }
  let calls = sheet.records.iter().map(|(_, call)| call);
  let answers = calls.map(|call| apply(&mut desk, call).number as u8).collect();
  Ok(Ran { sheet, answers, desk })
}

/// What the program prints for this standard input.
pub fn printed(input: &[u8]) -> Vec<u8> {
  match run(input, true, MOST_RECORDS) {
    Err(number) => format!("0 {number}\n").into_bytes(),
    Ok(Ran { sheet, answers, desk }) => {
      let each = sheet.records.iter().zip(answers);
      let lines: String = each.map(|((kind, _), answer)| format!("{kind} {answer}\n")).collect();
      (lines + &desk.magic_string().to_string()).into_bytes()
    }
  }
}
