//! A sheet as data, and its bytes, written plainly.

pub struct Sheet {
  pub source: Vec<u8>,
  pub records: Vec<Record>,
}

/// A record. The text is empty if the kind has none.
pub struct Record {
  pub kind: u8,
  pub positions: Vec<u32>,
  pub text: Vec<u8>,
}

impl Sheet {
  pub fn bytes(&self) -> Vec<u8> {
    let length = u16::try_from(self.source.len()).unwrap().to_be_bytes();
    let records: Vec<u8> = self.records.iter().flat_map(Record::bytes).collect();
    [&[1][..], &length, &self.source, &records].concat()
  }
}

impl Record {
  pub fn bytes(&self) -> Vec<u8> {
    let positions: Vec<u8> = self.positions.iter().flat_map(|at| at.to_be_bytes()).collect();
    let rest = [&[self.kind][..], &positions, &self.text].concat();
    let length = u16::try_from(rest.len()).unwrap().to_be_bytes();
    [&length[..], &rest].concat()
  }
}
