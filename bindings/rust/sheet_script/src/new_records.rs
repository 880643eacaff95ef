//! Records that are written one behind the other, for a sheet or for a list, within the
//! limits that both have.

use crate::{
  Record,
  limits::{SHEET_BYTES, SHEET_RECORDS},
};

/// The records' bytes and number.
#[derive(Default)]
pub struct NewRecords {
  pub bytes: Vec<u8>,
  pub count: usize,
}

impl NewRecords {
  /// Adds a record of what is named here: "a sheet" or "a list".
  pub fn add(&mut self, record: &Record, whole: &str) -> Result<(), String> {
    if self.count == SHEET_RECORDS {
      return Err(format!("{whole} has at most {SHEET_RECORDS} calls"));
    }
    let bytes = record.bytes().ok_or_else(|| {
      let most = usize::from(u16::MAX) - record.kind.length();
      format!("a text of {} has at most {most} bytes", record.kind.name())
    })?;
    self.count += 1;
    self.bytes.extend(bytes);
    Ok(())
  }
}

/// Refuses a whole that is too long.
pub fn check_size(size: usize, whole: &str) -> Result<(), String> {
  match size <= SHEET_BYTES {
    true => Ok(()),
    false => Err(format!("{whole} has at most {SHEET_BYTES} bytes")),
  }
}
