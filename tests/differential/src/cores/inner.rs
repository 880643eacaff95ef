//! The inner functions as a core: crates/inner_calls has them behind two exported
//! ones, which take desks of any size and a list of edits at once.

use oracle::Call;

use super::{Core, Unseen};
use crate::{Answer, Lent, Sizes};

unsafe extern "C" {
  fn inner_open(
    source: *const u8,
    source_len: usize,
    chunks: *mut u32,
    chunks_len: usize,
    pieces: *mut u32,
    pieces_len: usize,
    store: *mut u8,
    store_len: usize,
  ) -> Answer;

  fn inner_paper(
    source: *const u8,
    source_len: usize,
    chunks: *mut u32,
    chunks_len: usize,
    pieces: *mut u32,
    pieces_len: usize,
    store: *mut u8,
    store_len: usize,
    calls: *const u32,
    calls_len: usize,
    texts: *const u8,
    texts_len: usize,
    answers: *mut u32,
    answers_len: usize,
  ) -> Answer;
}

/// What `inner_paper` writes of an edit: its number, and from bit 8 on its cuts.
pub fn inner_answer(word: u32) -> Answer {
  Answer { number: word & 0xff, value: word >> 8 }
}

impl Lent<'_> {
  /// Opens a desk in tables of any size.
  pub fn inner_open(&mut self) -> Answer {
    unsafe {
      inner_open(
        self.source.as_ptr(),
        self.source.len(),
        self.chunks.as_mut_ptr(),
        self.chunks.len(),
        self.pieces.as_mut_ptr(),
        self.pieces.len(),
        self.store.as_mut_ptr(),
        self.store.len(),
      )
    }
  }

  /// Makes the edits of a list behind one check and writes the `inner_answer` of each. The
  /// value is how many were made.
  pub fn inner_paper(&mut self, list: &List, answers: &mut [u32]) -> Answer {
    unsafe {
      inner_paper(
        self.source.as_ptr(),
        self.source.len(),
        self.chunks.as_mut_ptr(),
        self.chunks.len(),
        self.pieces.as_mut_ptr(),
        self.pieces.len(),
        self.store.as_mut_ptr(),
        self.store.len(),
        list.calls.as_ptr(),
        list.calls.len(),
        list.texts.as_ptr(),
        list.texts.len(),
        answers.as_mut_ptr(),
        answers.len(),
      )
    }
  }
}

/// Edits as `inner_paper` takes them: six words each, and their texts behind each
/// other.
#[derive(Debug, Clone, Default)]
pub struct List {
  calls: Vec<u32>,
  texts: Vec<u8>,
}

impl List {
  pub fn new<'a>(calls: impl IntoIterator<Item = &'a Call>, unseen: &Unseen) -> Self {
    let mut list = Self::default();
    calls.into_iter().for_each(|call| list.push(call, unseen));
    list
  }

  /// How many edits it has.
  pub fn len(&self) -> usize {
    self.calls.len() / 6
  }

  pub fn is_empty(&self) -> bool {
    self.calls.is_empty()
  }

  fn push(&mut self, call: &Call, unseen: &Unseen) {
    let [kind, a, b, c] = words(call, unseen);
    let text = match call {
      Call::IndentWith { indentor: None, .. } => unseen.text,
      _ => call.text().unwrap_or_default(),
    };
    self.calls.extend([kind, a, b, c, self.texts.len() as u32, text.len() as u32]);
    self.texts.extend(text);
  }
}

/// The kind of an edit, that of a sheet's record for an insertion, and its numbers.
fn words(call: &Call, unseen: &Unseen) -> [u32; 4] {
  match *call {
    Call::Remove { start, end } => [1, start, end, 0],
    Call::Reset { start, end } => [2, start, end, 0],
    Call::Relocate { start, end, to } => [3, start, end, to],
    Call::Insert { at, setting, .. } => [setting.kind().into(), at, 0, 0],
    Call::Append { .. } => [8, 0, 0, 0],
    Call::Prepend { .. } => [9, 0, 0, 0],
    Call::UpdateWith { start, end, overwrite, .. } => [10, start, end, overwrite],
    Call::Trim { pattern } => [11, pattern, 0, 0],
    Call::TrimStart { pattern } => [12, pattern, 0, 0],
    Call::TrimEnd { pattern } => [13, pattern, 0, 0],
    Call::TrimLines => [14, 0, 0, 0],
    Call::IndentWith { indentor: Some(_), .. } => [15, unseen.yes[0], 0, 0],
    Call::IndentWith { indentor: None, .. } => [15, 0, 0, 0],
    _ => unreachable!("{call} is not made in a list"),
  }
}

#[derive(Debug, Clone, Copy)]
pub struct Inner;

/// Stands in the answers that are not written.
const UNWRITTEN: u32 = 0xdead_beef;

impl Core for Inner {
  fn name(&self) -> &'static str {
    "inner functions"
  }

  fn call(&mut self, lent: &mut Lent, call: &Call, unseen: &Unseen, _: &mut [u8]) -> Answer {
    match call {
      Call::Open { .. } => lent.inner_open(),
      _ => self.list(lent, &[call], unseen)[0],
    }
  }

  /// Every edit but freezing, and with no excluded positions.
  fn has(&self, call: &Call) -> bool {
    match call {
      Call::Freeze { .. } => false,
      Call::IndentWith { exclude, .. } => exclude.is_empty(),
      _ => call.is_edit(),
    }
  }

  fn well_formed(&mut self, lent: &Lent) -> Answer {
    let [mut chunks, mut pieces] = [lent.chunks.to_vec(), lent.pieces.to_vec()];
    let mut store = lent.store.to_vec();
    let (chunks, pieces, store) = (&mut chunks[..], &mut pieces[..], &mut store[..]);
    let mut copy = Lent { source: lent.source, chunks, pieces, store };
    let answer = copy.inner_paper(&List::default(), &mut []);
    let same = copy.chunks == lent.chunks && copy.pieces == lent.pieces && copy.store == lent.store;
    assert!(same, "a list of no edit changed the tables");
    answer
  }

  fn takes(&self, _: Sizes) -> bool {
    true
  }

  fn list(&mut self, lent: &mut Lent, calls: &[&Call], unseen: &Unseen) -> Vec<Answer> {
    let list = List::new(calls.iter().copied(), unseen);
    let mut answers = vec![UNWRITTEN; calls.len() + 2];
    // Room for one answer more than there are calls, and a word that is not lent.
    let whole = lent.inner_paper(&list, &mut answers[..calls.len() + 1]);
    let made = if whole == Answer::NO_DESK { 0 } else { calls.len() };
    let counted = whole == Answer { number: 0, value: made as u32 } || made == 0;
    assert!(counted, "a list of {made} edits gives {whole:?}");
    assert!(answers[made..].iter().all(|&word| word == UNWRITTEN), "answers of no edit");
    match made {
      0 => vec![Answer::NO_DESK; calls.len()],
      _ => answers[..made].iter().map(|&word| inner_answer(word)).collect(),
    }
  }
}
