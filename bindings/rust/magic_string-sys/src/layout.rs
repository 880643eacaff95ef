//! The limits of a desk and of a record of filed calls and the words of their memory, as
//! docs/LAYOUT.md and include/magic_string.h have them, and the limits of a sheet, whose
//! form the header describes. For callers who make or keep desks and records as memory,
//! or make sheets.

/// Most bytes of a source.
pub const SOURCE_BYTES: usize = 16_384;
/// Most chunks.
pub const CHUNKS: usize = 512;
/// Most pieces in all lists together, empty ones counted.
pub const PIECES: usize = 1_024;
/// Most bytes in pieces and replacements together.
pub const STORE_BYTES: usize = 32_768;

/// The version of a sheet, its first byte.
pub const SHEET_VERSION: u8 = 1;
/// Bytes of a sheet before its source.
pub const SHEET_FRONT: usize = 3;
/// Most records of a sheet, and of a list to be joined.
pub const SHEET_RECORDS: usize = 200;
/// Most bytes of a whole sheet, and of a list to be joined.
pub const SHEET_BYTES: usize = 57_344;

/// Most calls in a record.
pub const RECORD_CALLS: usize = 200;
/// Most bytes in the texts of the filed calls together.
pub const RECORD_TEXT: usize = 32_768;
/// Most bytes of a filed call before its text.
pub const RECORD_FRONT: usize = 15;
/// Highest marks of a filed call, in tenths of a point.
pub const HIGHEST_MARKS: u32 = 100;

/// Length of the table of chunks, in words: the desk's own row and [`CHUNKS`] rows.
pub const CHUNKS_LEN: usize = (1 + CHUNKS) * ROW;
/// Length of the table of pieces, in words: two rows for each of [`PIECES`].
pub const PIECES_LEN: usize = 2 * PIECES * PIECE;
/// Length of the store, in bytes.
pub const STORE_LEN: usize = STORE_BYTES;
/// Length of a record's words: the first, and the kept desk's chunks and pieces.
pub const RECORD_WORDS_LEN: usize = KEPT_PIECES + PIECES_LEN;
/// Length of a record's bytes: room for the filed calls, an answer and marks for each, and
/// the kept desk's store.
pub const RECORD_BYTES_LEN: usize = KEPT_STORE + STORE_LEN;

/// Words in a row of chunks.
pub const ROW: usize = 12;
/// Words in a row of pieces.
pub const PIECE: usize = 2;

/// Word of a row of chunks: first byte of the span. In row 0, how many chunks.
pub const START: usize = 0;
/// First byte behind the span.
pub const END: usize = 1;
/// Next chunk of the list, [`LIST_END`] at the last. In row 0, the first chunk.
pub const NEXT: usize = 2;
/// Chunk before it, [`LIST_END`] at the first. In row 0, the last chunk.
pub const PREV: usize = 3;
/// First piece of the intro. In row 0, of the whole's.
pub const INTRO_AT: usize = 4;
/// How many pieces the intro has.
pub const INTRO_N: usize = 5;
/// First piece of the outro. In row 0, of the whole's.
pub const OUTRO_AT: usize = 6;
/// How many pieces the outro has.
pub const OUTRO_N: usize = 7;
/// Where the replacement begins in the store, or [`NONE`].
pub const TEXT_AT: usize = 8;
/// How many bytes the replacement has.
pub const TEXT_N: usize = 9;
/// The mark of a frozen chunk: 0 is clear, any other word set.
pub const MARK: usize = 10;

/// Word of a row of pieces: where its text begins in the store.
pub const PIECE_AT: usize = 0;
/// How many bytes the text has.
pub const PIECE_N: usize = 1;

/// Word of a record: how many of its bytes the filed calls have.
pub const RECORD_USED: usize = 0;
/// Where the answers begin in a record's bytes, behind the room for the filed calls. The
/// calls stand one behind the other, each in the form of a sheet's record; the answers
/// are in their order, a byte each.
pub const RECORD_ANSWERS: usize = RECORD_CALLS * RECORD_FRONT + RECORD_TEXT;
/// Where the marks begin there, behind the room for the answers, in the same order, a byte
/// each.
pub const RECORD_MARKS: usize = RECORD_ANSWERS + RECORD_CALLS;
/// Where the kept desk's chunks begin in a record's words: those of the desk as it stood
/// before the first filed call. They are not looked at while no call is filed.
pub const KEPT_CHUNKS: usize = RECORD_USED + 1;
/// Where its pieces begin there.
pub const KEPT_PIECES: usize = KEPT_CHUNKS + CHUNKS_LEN;
/// Where its store begins in a record's bytes, behind the marks.
pub const KEPT_STORE: usize = RECORD_MARKS + RECORD_CALLS;

/// In [`NEXT`] and [`PREV`]: the list ends. It is row 0, the desk's own, whose
/// [`NEXT`] and [`PREV`] are the first chunk and the last.
pub const LIST_END: u32 = 0;
/// In [`TEXT_AT`]: the chunk has no replacement.
pub const NONE: u32 = 0xFFFF_FFFF;

/// The value of `last_char` where the output has no last character.
pub const NO_CHAR: u32 = 0xFFFF_FFFF;
