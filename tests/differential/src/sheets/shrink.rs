//! A smaller sheet on which the sides still differ: records are dropped, texts and
//! the source shortened, and what is lent made plain.

use super::{
  fields::{DROPS, Drop, Fields},
  handed::{FULL, Handed},
};
use crate::drop_rows::drop_rows;

/// Sheets that are tried at most.
const MOST_TRIES: usize = 5_000;

/// The smallest sheet found, with its difference. `handed` must have one; `differs`
/// tells it of others.
pub fn shrink(
  handed: Handed,
  found: String,
  differs: impl FnMut(&Handed) -> Option<String>,
) -> (Handed, String) {
  let mut shrinker = Shrinker { differs, tries: 0, handed, found };
  shrinker.lend_plainly();
  loop {
    let before = shrinker.handed.sheet.len();
    shrinker.drop_records();
    shrinker.shorten_texts();
    shrinker.shorten_source();
    if shrinker.handed.sheet.len() == before {
      return (shrinker.handed, shrinker.found);
    }
  }
}

struct Shrinker<D> {
  differs: D,
  tries: usize,
  handed: Handed,
  found: String,
}

impl<D: FnMut(&Handed) -> Option<String>> Shrinker<D> {
  /// Takes it if the sides still differ.
  fn take(&mut self, handed: Handed) -> bool {
    self.tries += 1;
    let found = (self.tries <= MOST_TRIES).then(|| (self.differs)(&handed)).flatten();
    let Some(found) = found else { return false };
    (self.handed, self.found) = (handed, found);
    true
  }

  /// Takes the sheet, if it is a shorter one, with what is lent as it is.
  fn take_sheet(&mut self, sheet: Fields) -> bool {
    let sheet = sheet.bytes();
    sheet.len() < self.handed.sheet.len() && self.take(Handed { sheet, ..self.handed.clone() })
  }

  fn lend_plainly(&mut self) {
    self.take(Handed { lengths: FULL, ..self.handed.clone() });
    self.take(Handed { printed: false, ..self.handed.clone() });
  }

  fn fields(&self) -> Option<Fields> {
    Fields::split(&self.handed.sheet)
  }

  /// Drops what stands behind the last record, and records.
  fn drop_records(&mut self) {
    let Some(sheet) = self.fields() else { return };
    self.take_sheet(Fields { rest: Vec::new(), ..sheet });
    let len = |shrinker: &Self| shrinker.fields().map_or(0, |sheet| sheet.records.len());
    drop_rows(self, len, |shrinker, row| {
      let Some(mut sheet) = shrinker.fields() else { return false };
      sheet.records.drain(row);
      shrinker.take_sheet(sheet)
    });
  }

  /// Each text to nothing, or as far down as it goes by halves and bytes.
  fn shorten_texts(&mut self) {
    let records = self.fields().map_or(0, |sheet| sheet.records.len());
    for place in 0..records {
      self.shorten(|sheet, drop| {
        sheet.records.iter_mut().skip(place).take(1).for_each(|record| record.shorten(drop));
      });
    }
  }

  /// From its end, and from its front with all positions moved.
  fn shorten_source(&mut self) {
    for at_front in [false, true] {
      self.shorten(|sheet, drop| {
        let len = sheet.source.len();
        let dropped = drop(len).min(len);
        sheet.source_len = sheet.source_len.saturating_sub(dropped as u16);
        if at_front {
          sheet.source.drain(..dropped);
          sheet.records.iter_mut().for_each(|record| record.lower(dropped));
        } else {
          sheet.source.truncate(len - dropped);
        }
      });
    }
  }

  /// Drops all of a part, else half of it, else a byte, as long as one of them can be
  /// taken.
  fn shorten(&mut self, shorter: impl Fn(&mut Fields, Drop)) {
    let mut taken = true;
    while taken {
      taken = DROPS.into_iter().any(|drop| {
        let Some(mut sheet) = self.fields() else { return false };
        shorter(&mut sheet, drop);
        self.take_sheet(sheet)
      });
    }
  }
}
