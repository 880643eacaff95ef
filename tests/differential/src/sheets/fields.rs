//! A sheet by its fields, so that each can be wrong alone.

use oracle::Call;

/// A sheet that keeps the rules or not. Lengths are what the fields say.
#[derive(Debug, Clone, PartialEq, Eq)]
pub struct Fields {
  pub version: u8,
  pub source_len: u16,
  pub source: Vec<u8>,
  pub records: Vec<Record>,
  /// Bytes behind the last record.
  pub rest: Vec<u8>,
}

/// A record's length field and what stands behind it.
#[derive(Debug, Clone, PartialEq, Eq)]
pub struct Record {
  pub len: u16,
  pub body: Vec<u8>,
}

impl Fields {
  /// The sheet of these calls.
  pub fn of(source: &[u8], calls: &[Call]) -> Self {
    let (source_len, source) = (length(source), source.to_vec());
    let records = calls.iter().map(Record::of).collect();
    Self { version: 1, source_len, source, records, rest: Vec::new() }
  }

  pub fn bytes(&self) -> Vec<u8> {
    let mut bytes = vec![self.version];
    bytes.extend(self.source_len.to_be_bytes());
    bytes.extend(&self.source);
    bytes.extend(self.list());
    bytes
  }

  /// What stands behind the source.
  pub fn list(&self) -> Vec<u8> {
    [join_list(&self.records), self.rest.clone()].concat()
  }

  /// Where the record at this place of the list begins.
  pub fn record_at(&self, place: usize) -> usize {
    let before = self.records[..place].iter().map(|record| 2 + record.body.len());
    3 + self.source.len() + before.sum::<usize>()
  }

  /// The fields of these bytes, as far as they go; none where they end before the
  /// source.
  pub fn split(bytes: &[u8]) -> Option<Self> {
    let (&[version, high, low], bytes) = bytes.split_first_chunk()?;
    let source_len = u16::from_be_bytes([high, low]);
    let (source, list) = bytes.split_at(bytes.len().min(source_len.into()));
    let (records, rest) = split_list(list);
    Some(Self { version, source_len, source: source.to_vec(), records, rest: rest.to_vec() })
  }
}

/// The whole records at the front of these bytes, and what stands behind them.
pub fn split_list(bytes: &[u8]) -> (Vec<Record>, &[u8]) {
  let mut records = Vec::new();
  let mut rest = bytes;
  while let Some((&len, behind)) = rest.split_first_chunk()
    && let len = u16::from_be_bytes(len)
    && let Some((body, behind)) = behind.split_at_checked(len.into())
  {
    records.push(Record { len, body: body.to_vec() });
    rest = behind;
  }
  (records, rest)
}

/// The records one behind the other.
pub fn join_list(records: &[Record]) -> Vec<u8> {
  records.iter().map(Record::bytes).collect::<Vec<_>>().concat()
}

/// How many of so many bytes are dropped.
pub type Drop = fn(usize) -> usize;

/// What is tried to make a text shorter: without all of it, half of it, a byte.
pub const DROPS: [Drop; 3] = [|len| len, |len| len / 2, |_| 1];

impl Record {
  pub fn new(body: Vec<u8>) -> Self {
    Self { len: length(&body), body }
  }

  /// The record of a call that a sheet can have.
  pub fn of(call: &Call) -> Self {
    let mut body = vec![kind(call).expect("a call of a sheet")];
    body.extend(call.positions().into_iter().flat_map(u32::to_be_bytes));
    body.extend(call.text().unwrap_or_default());
    Self::new(body)
  }

  pub fn bytes(&self) -> Vec<u8> {
    [&self.len.to_be_bytes()[..], &self.body].concat()
  }

  /// How many positions a record of this kind has.
  fn positions(&self) -> usize {
    match self.body.first() {
      Some(1..=3) => 2,
      Some(4..=7) => 1,
      Some(8) => 3,
      _ => 0,
    }
  }

  /// Where the text begins in the body of a record that may have one.
  pub fn text_at(&self) -> Option<usize> {
    let at = 1 + 4 * self.positions();
    let has_text = matches!(self.body.first(), Some(2 | 4..=7)) && at <= self.body.len();
    has_text.then_some(at)
  }

  /// Drops some of the text, if it has one.
  pub fn shorten(&mut self, drop: Drop) {
    let Some(at) = self.text_at() else { return };
    let len = self.body.len() - at;
    self.body.truncate(at + len - drop(len).min(len));
    self.len = length(&self.body);
  }

  /// Lowers each position by so much, or to 0.
  pub fn lower(&mut self, by: usize) {
    let positions = self.positions();
    let fields = self.body.get_mut(1..).unwrap_or_default().as_chunks_mut().0;
    for field in fields.iter_mut().take(positions) {
      *field = u32::from_be_bytes(*field).saturating_sub(by as u32).to_be_bytes();
    }
  }
}

/// The kind of a record that makes this call, if a sheet can have one.
pub fn kind(call: &Call) -> Option<u8> {
  Some(match call {
    Call::Remove { .. } => 1,
    Call::UpdateWith { overwrite: 1.., .. } => 2,
    Call::Reset { .. } => 3,
    Call::Insert { setting, .. } => setting.kind(),
    Call::Relocate { .. } => 8,
    _ => return None,
  })
}

fn length(bytes: &[u8]) -> u16 {
  bytes.len().try_into().expect("a length of 16 bits")
}
