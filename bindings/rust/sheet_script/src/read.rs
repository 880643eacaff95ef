//! A sheet read out of its bytes.

use crate::{
  Kind, Record, SheetError,
  limits::{SHEET_BYTES, SHEET_FRONT, SHEET_RECORDS, SHEET_VERSION},
};

pub struct Sheet<'a> {
  pub source: &'a [u8],
  pub records: Vec<Record<'a>>,
}

/// Reads the whole sheet.
pub fn sheet(bytes: &[u8]) -> Result<Sheet<'_>, SheetError> {
  let source = source(bytes).map_err(|(byte, what)| SheetError { record: None, byte, what })?;
  let front = SHEET_FRONT + source.len();
  let records = records(&bytes[front..]);
  let records = records.map_err(|error| SheetError { byte: front + error.byte, ..error })?;
  Ok(Sheet { source, records })
}

/// The records that stand one behind the other in these bytes, as they do behind the
/// source of a sheet.
///
/// # Errors
/// The first place at which the bytes break the rules of such records.
pub fn records(bytes: &[u8]) -> Result<Vec<Record<'_>>, SheetError> {
  let mut records = Vec::new();
  let mut at = 0;
  while at < bytes.len() {
    let number = records.len() + 1;
    let named = |(byte, what)| SheetError { record: Some(number), byte: at + byte, what };
    if number > SHEET_RECORDS {
      return Err(named((0, format!("there are at most {SHEET_RECORDS} records"))));
    }
    let record = record(&bytes[at..]).map_err(named)?;
    at += 2 + record.kind.length() + record.text.len();
    records.push(record);
  }
  Ok(records)
}

/// The records of a list, which stand one behind the other and before which there is
/// nothing. It may be as long as a sheet.
///
/// # Errors
/// The first place at which the list breaks its rules.
pub fn list(bytes: &[u8]) -> Result<Vec<Record<'_>>, SheetError> {
  if bytes.len() > SHEET_BYTES {
    let what = format!("a list has at most {SHEET_BYTES} bytes");
    return Err(SheetError { record: None, byte: SHEET_BYTES, what });
  }
  records(bytes)
}

/// A byte's place, and what is wrong there.
type Wrong = (usize, String);

/// The source, once what stands before it and the sheet's size are in order.
fn source(sheet: &[u8]) -> Result<&[u8], Wrong> {
  if sheet.len() > SHEET_BYTES {
    return Err((SHEET_BYTES, format!("a sheet has at most {SHEET_BYTES} bytes")));
  }
  if let Some(&version) = sheet.first()
    && version != SHEET_VERSION
  {
    return Err((0, format!("the version is {version}, not {SHEET_VERSION}")));
  }
  let &[_, high, low, ref rest @ ..] = sheet else {
    return Err((sheet.len(), "the sheet ends before its source".to_string()));
  };
  let length = u16::from_be_bytes([high, low]).into();
  rest.get(..length).ok_or_else(|| {
    (1, format!("the source has {length} bytes, but the sheet only {} more", rest.len()))
  })
}

/// The record at the front. Places are counted from there.
fn record(bytes: &[u8]) -> Result<Record<'_>, Wrong> {
  let rest = behind_length(bytes)?;
  let Some((&byte, behind)) = rest.split_first() else {
    return Err((0, "the record's length is 0".to_string()));
  };
  let kind = Kind::of_byte(byte).ok_or_else(|| (2, format!("there is no kind {byte}")))?;
  check_length(kind, rest.len())?;
  let (positions, text) = behind.split_at(4 * kind.positions());
  let (positions, _) = positions.as_chunks();
  let positions = positions.iter().map(|&position| u32::from_be_bytes(position)).collect();
  Ok(Record { kind, positions, text })
}

/// As many bytes behind the length of the record at the front as it says.
fn behind_length(bytes: &[u8]) -> Result<&[u8], Wrong> {
  let &[high, low, ref rest @ ..] = bytes else {
    return Err((0, "the bytes end inside the record's length".to_string()));
  };
  let length = u16::from_be_bytes([high, low]).into();
  rest.get(..length).ok_or_else(|| {
    (0, format!("the record's length is {length}, but there are only {} bytes more", rest.len()))
  })
}

/// Refuses a length that a record of the kind cannot have.
fn check_length(kind: Kind, length: usize) -> Result<(), Wrong> {
  let (fits, least) = match kind.has_text() {
    true => (length >= kind.length(), "at least "),
    false => (length == kind.length(), ""),
  };
  if !fits {
    let (name, right) = (kind.name(), kind.length());
    let what = format!("the record's length is {length}, but that of {name} is {least}{right}");
    return Err((0, what));
  }
  Ok(())
}
