//! What a sheet may have, as include/magic_string.h has it. A list has as many records and
//! as many bytes at most.

/// The version, the first byte.
pub const SHEET_VERSION: u8 = 1;
/// Bytes before the source: the version and the source's length.
pub const SHEET_FRONT: usize = 3;
/// Most records.
pub const SHEET_RECORDS: usize = 200;
/// Most bytes of a whole sheet.
pub const SHEET_BYTES: usize = 57_344;
