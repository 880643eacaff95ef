use crate::{MagicString, Refusal, layout::*, memory::Memory};

/// What [`MagicString::run_sheet`] leaves.
#[derive(Debug, Clone, PartialEq, Eq)]
pub struct SheetRun {
  /// The desk after all calls. It owns its source, a copy of the sheet's.
  pub desk: MagicString,
  /// The answer of each record's call, in the order of the sheet.
  pub answers: Vec<Result<(), Refusal>>,
}

impl MagicString {
  /// Opens the source of a sheet and makes the call of each of its records, one for
  /// each, in order; after a refused one it goes on. `include/magic_string.h` has the
  /// form of a sheet, and the crate `sheet_script` makes one of a readable script. A
  /// record's text that is not UTF-8 makes its call give [`Refusal::NotUtf8`].
  ///
  /// # Errors
  /// In this order [`Refusal::BadSheet`], [`Refusal::Limit`] for a source of more than
  /// 16,384 bytes, [`Refusal::NotUtf8`] for the source; then nothing is opened. It
  /// gives no [`Refusal::NotWellFormed`] and no [`Refusal::ShortBuffer`], which the
  /// exported function has before and behind these: the memory that the wrapper lends
  /// is always long enough.
  ///
  /// # Example
  /// ```
  /// use magic_string::{End, MagicString, Refusal, Side};
  ///
  /// # fn main() -> Result<(), Refusal> {
  /// // The version, the source "abc", and one record: relocate(0, 2, 3).
  /// let sheet = b"\x01\0\x03abc\0\x0D\x08\0\0\0\0\0\0\0\x02\0\0\0\x03";
  /// let mut run = MagicString::run_sheet(sheet)?;
  /// assert_eq!(run.answers, [Ok(())]);
  /// assert_eq!(run.desk.to_string(), "cab");
  ///
  /// run.desk.insert(3, "!", Side::Left, End::Back)?;
  /// assert_eq!(run.desk.to_string(), "c!ab");
  ///
  /// // A byte too many.
  /// let longer = [sheet, &b"\0"[..]].concat();
  /// assert_eq!(MagicString::run_sheet(&longer), Err(Refusal::BadSheet));
  /// # Ok(())
  /// # }
  /// ```
  pub fn run_sheet(sheet: &[u8]) -> Result<SheetRun, Refusal> {
    let mut memory = Memory::new(Vec::new());
    let mut answers = [0; SHEET_RECORDS];
    let written = memory.run_sheet(sheet, &mut answers)?;
    memory.source = source(sheet).into();
    let answers = answers[..written as usize].iter().map(|&number| Refusal::answer(number.into()));
    Ok(SheetRun { desk: Self { memory, cuts: 0 }, answers: answers.collect() })
  }
}

/// The source of a sheet that was run.
fn source(sheet: &[u8]) -> &[u8] {
  let length = u16::from_be_bytes([sheet[1], sheet[2]]);
  &sheet[SHEET_FRONT..][..length.into()]
}
