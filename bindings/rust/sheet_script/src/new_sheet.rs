//! A sheet that is written part by part, within its limits.

use crate::{
  Record,
  limits::{SHEET_FRONT, SHEET_VERSION},
  line::Line,
  new_records::{NewRecords, check_size},
};

const SHEET: &str = "a sheet";

/// The source, once there is one, and the records.
#[derive(Default)]
pub struct NewSheet {
  source: Option<Vec<u8>>,
  records: NewRecords,
}

impl NewSheet {
  /// Adds what a line says.
  pub fn add(&mut self, line: &Line) -> Result<(), String> {
    match line {
      Line::Blank => Ok(()),
      Line::Source(text) => self.source(text),
      Line::Call(call) => self.record(&call.record()),
    }
  }

  fn source(&mut self, text: &[u8]) -> Result<(), String> {
    if self.records.count > 0 {
      return Err("the source stands before the calls".to_string());
    }
    let source = self.source.get_or_insert_default();
    source.extend(text);
    if source.len() > u16::MAX.into() {
      return Err(format!("the source has more than {} bytes", u16::MAX));
    }
    self.check_size()
  }

  fn record(&mut self, record: &Record) -> Result<(), String> {
    if self.source.is_none() {
      return Err("the source is missing before the first call".to_string());
    }
    self.records.add(record, SHEET)?;
    self.check_size()
  }

  /// Refuses a sheet that is too long.
  fn check_size(&self) -> Result<(), String> {
    let source = self.source.as_ref().map_or(0, Vec::len);
    check_size(SHEET_FRONT + source + self.records.bytes.len(), SHEET)
  }

  /// The whole sheet.
  pub fn bytes(self) -> Result<Vec<u8>, String> {
    let source = self.source.ok_or("the script has no source")?;
    let length = u16::try_from(source.len()).expect("a source's length has 16 bits");
    let mut sheet = vec![SHEET_VERSION];
    sheet.extend(length.to_be_bytes());
    sheet.extend(source);
    sheet.extend(self.records.bytes);
    Ok(sheet)
  }
}
