//! A desk and a record in lent memory, the calls on both, and calls to be filed in bytes.
#![allow(dead_code, reason = "no test needs all of it")]

use magic_string_sys::{
  Answer, edit, layout::*, magic_string_entry, magic_string_marked_entry, magic_string_set_marks,
  magic_string_total, report,
};

/// Calls a function that reads the record of `$memory`.
macro_rules! reading {
  ($memory:ident, $name:ident $(, $argument:expr)*) => {
    $name(
      $memory.source.as_ptr(), $memory.source.len(),
      $memory.words.as_ptr(), $memory.words.len(),
      $memory.bytes.as_ptr(), $memory.bytes.len()
      $(, $argument)*
    )
  };
}

/// All that is lent to calls on a record.
#[derive(Debug, Clone, PartialEq)]
pub struct Lent {
  pub source: Vec<u8>,
  pub chunks: Vec<u32>,
  pub pieces: Vec<u32>,
  pub store: Vec<u8>,
  pub words: Vec<u32>,
  pub bytes: Vec<u8>,
}

// Sound: each address comes with the length of its slice, and the slices that are written
// lie apart.
impl Lent {
  /// A fresh desk, and an empty record that holds this byte all over.
  pub fn open(source: &str, byte: u8) -> Self {
    let mut lent = Self {
      source: source.into(),
      chunks: vec![0; CHUNKS_LEN],
      pieces: vec![0; PIECES_LEN],
      store: vec![0; STORE_LEN],
      words: vec![u32::from_ne_bytes([byte; 4]); RECORD_WORDS_LEN],
      bytes: vec![byte; RECORD_BYTES_LEN],
    };
    lent.words[RECORD_USED] = 0;
    assert_eq!(lent.open_anew(), Answer::ACCEPTED);
    lent
  }

  pub fn open_anew(&mut self) -> Answer {
    unsafe { edit!(self, magic_string_open) }
  }

  pub fn remove(&mut self, start: u32, end: u32) -> Answer {
    unsafe { edit!(self, magic_string_remove, start, end) }
  }

  pub fn update(&mut self, start: u32, end: u32, text: &[u8]) -> Answer {
    let (text, text_len) = (text.as_ptr(), text.len());
    unsafe { edit!(self, magic_string_update_with, start, end, text, text_len, 0) }
  }

  pub fn reset(&mut self, start: u32, end: u32) -> Answer {
    unsafe { edit!(self, magic_string_reset, start, end) }
  }

  pub fn append(&mut self, text: &[u8]) -> Answer {
    unsafe { edit!(self, magic_string_append, text.as_ptr(), text.len()) }
  }

  pub fn trim(&mut self, pattern: u32) -> Answer {
    unsafe { edit!(self, magic_string_trim, pattern) }
  }

  pub fn indent(&mut self, indentor: &[u8], exclude: &[u32]) -> Answer {
    let (indentor, indentor_len) = (indentor.as_ptr(), indentor.len());
    let (exclude, exclude_len) = (exclude.as_ptr(), exclude.len());
    unsafe {
      edit!(self, magic_string_indent_with, 1, indentor, indentor_len, exclude, exclude_len)
    }
  }

  pub fn freeze(&mut self, start: u32, end: u32) -> Answer {
    let (words, words_len) = (self.words.as_ptr(), self.words.len());
    let (bytes, bytes_len) = (self.bytes.as_ptr(), self.bytes.len());
    unsafe { edit!(self, magic_string_freeze, words, words_len, bytes, bytes_len, start, end) }
  }

  pub fn file(&mut self, call: &[u8]) -> Answer {
    let (words, words_len) = (self.words.as_mut_ptr(), self.words.len());
    let (bytes, bytes_len) = (self.bytes.as_mut_ptr(), self.bytes.len());
    let (call, call_len) = (call.as_ptr(), call.len());
    unsafe { edit!(self, magic_string_file, words, words_len, bytes, bytes_len, call, call_len) }
  }

  pub fn withdraw(&mut self, k: u32) -> Answer {
    let (words, words_len) = (self.words.as_mut_ptr(), self.words.len());
    let (bytes, bytes_len) = (self.bytes.as_mut_ptr(), self.bytes.len());
    unsafe { edit!(self, magic_string_withdraw, words, words_len, bytes, bytes_len, k) }
  }

  pub fn set_marks(&mut self, k: u32, marks: u32) -> Answer {
    let (source, source_len) = (self.source.as_ptr(), self.source.len());
    let (words, words_len) = (self.words.as_ptr(), self.words.len());
    let (bytes, bytes_len) = (self.bytes.as_mut_ptr(), self.bytes.len());
    unsafe {
      magic_string_set_marks(source, source_len, words, words_len, bytes, bytes_len, k, marks)
    }
  }

  pub fn entry(&self, k: u32, out: &mut [u8]) -> Answer {
    unsafe { reading!(self, magic_string_entry, k, out.as_mut_ptr(), out.len()) }
  }

  pub fn marked_entry(&self, k: u32, out: &mut [u8]) -> Answer {
    unsafe { reading!(self, magic_string_marked_entry, k, out.as_mut_ptr(), out.len()) }
  }

  pub fn total(&self) -> Answer {
    unsafe { reading!(self, magic_string_total) }
  }

  pub fn text(&self) -> String {
    let mut out = vec![0; self.source.len() + STORE_BYTES];
    let written = unsafe { report!(self, magic_string_to_string, out.as_mut_ptr(), out.len()) };
    assert_eq!(written.number, 0);
    out.truncate(written.value as usize);
    String::from_utf8(out).unwrap()
  }

  /// Calls without marks, and this desk as the kept one, written into the record without
  /// any check.
  pub fn put(&mut self, calls: &[u8]) {
    self.words[RECORD_USED] = calls.len() as u32;
    self.bytes[RECORD_MARKS..KEPT_STORE].fill(0);
    self.bytes[..calls.len()].copy_from_slice(calls);
    self.words[KEPT_CHUNKS..KEPT_PIECES].copy_from_slice(&self.chunks);
    self.words[KEPT_PIECES..].copy_from_slice(&self.pieces);
    self.bytes[KEPT_STORE..].copy_from_slice(&self.store);
  }

  pub fn used(&self) -> &[u8] {
    &self.bytes[..self.words[RECORD_USED] as usize]
  }

  pub fn answers(&self, count: usize) -> &[u8] {
    &self.bytes[RECORD_ANSWERS..][..count]
  }

  pub fn marks(&self, count: usize) -> &[u8] {
    &self.bytes[RECORD_MARKS..][..count]
  }

  /// The kept desk as a desk, beside the same record.
  pub fn kept(&self) -> Self {
    let mut kept = self.clone();
    kept.chunks = self.words[KEPT_CHUNKS..KEPT_PIECES].to_vec();
    kept.pieces = self.words[KEPT_PIECES..].to_vec();
    kept.store = self.bytes[KEPT_STORE..].to_vec();
    kept
  }

  /// The spans of the chunks in list order, and whether each is frozen.
  pub fn spans(&self) -> Vec<(u32, u32, bool)> {
    let (mut spans, mut row) = (Vec::new(), &self.chunks[..ROW]);
    while row[NEXT] != LIST_END {
      row = &self.chunks[row[NEXT] as usize * ROW..][..ROW];
      spans.push((row[START], row[END], row[MARK] != 0));
    }
    spans
  }

  /// The spans of the frozen ones.
  pub fn frozen(&self) -> Vec<(u32, u32)> {
    let frozen = self.spans().into_iter().filter(|&(_, _, frozen)| frozen);
    frozen.map(|(start, end, _)| (start, end)).collect()
  }

  /// That all calls on a record give 2, and leave every word and byte as it was. 2 comes
  /// before 16, 17 and 20.
  pub fn all_refused(&self) {
    self.tables_refused();
    self.record_refused();
  }

  /// That those that take the tables do.
  pub fn tables_refused(&self) {
    let mut lent = self.clone();
    for call in [&b""[..], &remove(0, 1)] {
      assert_eq!(lent.file(call), Answer::NO_DESK);
    }
    for k in [0, 1] {
      assert_eq!(lent.withdraw(k), Answer::NO_DESK);
    }
    assert_eq!(lent.freeze(0, 1), Answer::NO_DESK);
    assert_eq!(lent, *self);
  }

  /// That those that take no tables give 2, and leave every byte as it was. 2 comes before
  /// 17, 21 and 14.
  pub fn record_refused(&self) {
    let mut lent = self.clone();
    for k in [0, 1] {
      for marks in [0, HIGHEST_MARKS + 1] {
        assert_eq!(lent.set_marks(k, marks), Answer::NO_DESK);
      }
      for length in [0, 100] {
        let mut out = vec![0xA5; length];
        assert_eq!(lent.entry(k, &mut out), Answer::NO_DESK);
        assert_eq!(lent.marked_entry(k, &mut out), Answer::NO_DESK);
        assert!(out.iter().all(|&byte| byte == 0xA5));
      }
    }
    assert_eq!(lent.total(), Answer::NO_DESK);
    assert_eq!(lent, *self);
  }
}

/// A call in bytes.
pub fn call(kind: u8, positions: &[u32], text: &[u8]) -> Vec<u8> {
  let positions: Vec<u8> = positions.iter().flat_map(|at| at.to_be_bytes()).collect();
  let rest = [&[kind], &positions[..], text].concat();
  [&(rest.len() as u16).to_be_bytes()[..], &rest].concat()
}

pub fn remove(start: u32, end: u32) -> Vec<u8> {
  call(1, &[start, end], b"")
}

pub fn append_left(at: u32, text: &[u8]) -> Vec<u8> {
  call(4, &[at], text)
}

pub fn edited(number: u32, cuts: u32) -> Answer {
  Answer { number, value: cuts }
}
