//! Sources opened whose bytes are characters, or are not: which are accepted, and what is
//! reported of those, beside what Rust's own `str` and `char` say.

use std::{fmt, iter};

use oracle::{Call, hex, number, random::Random};

use crate::{
  Answer, Core, Image, Unseen,
  cores::function,
  layout::{MOST_SOURCE, NO_CHAR},
};

/// Openings on a core, up to the first that is wrong.
pub struct Openings<'a, C> {
  core: &'a mut C,
  /// The tables that every opening is lent.
  image: Image,
  reports: Vec<Report>,
  /// What was opened, by kind.
  pub kinds: Vec<(String, Counts)>,
}

/// Sources that are UTF-8, sources that are not, and the characters of one to four bytes
/// in the former.
#[derive(Debug, Clone, Default)]
pub struct Counts {
  pub accepted: u64,
  pub refused: u64,
  pub characters: [u64; 4],
}

/// A source on which the core is wrong.
#[derive(Debug, Clone)]
pub struct Found {
  source: Vec<u8>,
  call: String,
  answer: Answer,
  expected: Answer,
}

/// A report, and its value on a fresh desk over the text.
type Report = (Call, fn(&str) -> u32);

const REPORTS: [Report; 4] = [
  (Call::Len, |text| text.len() as u32),
  (Call::LenUtf16, |text| text.encode_utf16().count() as u32),
  (Call::LastChar, |text| text.chars().next_back().map_or(NO_CHAR, u32::from)),
  (Call::IsEmpty, |text| text.chars().all(char::is_whitespace) as u32),
];

/// Bytes around the bounds of those that may follow a first byte.
pub const EDGES: &[u8] = &[0x00, 0x7f, 0x80, 0x8f, 0x90, 0x9f, 0xa0, 0xbf, 0xc0, 0xff];

/// So many characters are chosen at random.
const AT_RANDOM: usize = 4_000_000;

/// Every sequence of up to three bytes, and some of up to six; every character; and
/// characters at random.
pub fn all<C: Core>(openings: &mut Openings<C>, seed: u64) -> Result<(), Found> {
  let any: Vec<u8> = (0..=u8::MAX).collect();
  openings.sequences(&[&any])?;
  openings.sequences(&[&any, &any])?;
  openings.sequences(&[&any, &any, &any])?;
  openings.sequences(&[&any[0xe0..], &any, EDGES, EDGES])?;
  openings.sequences(&[&any[0xf0..], EDGES, EDGES, EDGES, EDGES])?;
  openings.sequences(&[&any[0xf8..], EDGES, EDGES, EDGES, EDGES, EDGES])?;
  openings.alone(char::MIN..=char::MAX)?;
  openings.texts("texts in order", char::MIN..=char::MAX)?;
  openings.texts("texts at random", at_random(seed).take(AT_RANDOM))
}

/// Characters of each width about equally often, in runs of one width: a single one, a
/// few, or so many that ASCII fills the blocks of 32 bytes which the library passes at
/// once.
pub fn at_random(seed: u64) -> impl Iterator<Item = char> {
  const BOUNDS: [usize; 5] = [0, 0x80, 0x800, 0x1_0000, 0x11_0000];
  let mut random = Random::new(seed);
  let (mut width, mut left) = (0, 0);
  let codes = iter::repeat_with(move || {
    if left == 0 {
      width = random.below(4);
      let most = [1, 1, 8, 100][random.below(4)];
      left = random.between(1, most);
    }
    left -= 1;
    random.between(BOUNDS[width], BOUNDS[width + 1] - 1) as u32
  });
  // Surrogates are no characters.
  codes.filter_map(char::from_u32)
}

impl<'a, C: Core> Openings<'a, C> {
  pub fn new(core: &'a mut C, seed: u64) -> Self {
    let image = Image::junk(Vec::new(), &mut Random::new(seed));
    let reports = REPORTS.into_iter().filter(|(call, _)| core.has(call)).collect();
    Self { core, image, reports, kinds: Vec::new() }
  }

  /// Each sequence that has one of these bytes at each place.
  pub fn sequences(&mut self, places: &[&[u8]]) -> Result<(), Found> {
    self.begin(&format!("sequences of length {}", places.len()));
    let mut sequence = vec![0; places.len()];
    for mut choice in 0..places.iter().map(|bytes| bytes.len()).product() {
      for (byte, bytes) in sequence.iter_mut().zip(places).rev() {
        *byte = bytes[choice % bytes.len()];
        choice /= bytes.len();
      }
      self.open(&sequence)?;
    }
    Ok(())
  }

  /// Each character as a source.
  pub fn alone(&mut self, characters: impl Iterator<Item = char>) -> Result<(), Found> {
    self.begin("characters alone");
    for character in characters {
      self.open(character.encode_utf8(&mut [0; 4]).as_bytes())?;
    }
    Ok(())
  }

  /// The characters one behind the other, in sources as long as may be.
  pub fn texts(&mut self, kind: &str, characters: impl Iterator<Item = char>) -> Result<(), Found> {
    self.begin(kind);
    let mut text = String::with_capacity(MOST_SOURCE);
    for character in characters {
      if text.len() + character.len_utf8() > MOST_SOURCE {
        self.open(text.as_bytes())?;
        text.clear();
      }
      text.push(character);
    }
    self.open(text.as_bytes())
  }

  fn begin(&mut self, kind: &str) {
    self.kinds.push((kind.to_string(), Counts::default()));
  }

  /// Opens the source, and makes the reports where it is UTF-8.
  fn open(&mut self, source: &[u8]) -> Result<(), Found> {
    let Self { core, image, reports, kinds } = self;
    let (_, counts) = kinds.last_mut().expect("a kind was begun");
    let mut compare = |call: &Call, expected: Answer| {
      let answer = core.call(&mut image.lend_with(source), call, &Unseen::PLAIN, &mut []);
      if answer == expected {
        return Ok(());
      }
      Err(Found { source: source.to_vec(), call: function(call), answer, expected })
    };
    let open = Call::Open { source: Vec::new() };
    let Ok(text) = str::from_utf8(source) else {
      counts.refused += 1;
      return compare(&open, Answer { number: number::NOT_UTF8, value: 0 });
    };
    counts.accepted += 1;
    text.chars().for_each(|character| counts.characters[character.len_utf8() - 1] += 1);
    compare(&open, Answer::ACCEPTED)?;
    reports.iter().try_for_each(|(report, value)| {
      compare(report, Answer { value: value(text), ..Answer::ACCEPTED })
    })
  }
}

impl fmt::Display for Counts {
  fn fmt(&self, out: &mut fmt::Formatter) -> fmt::Result {
    let Self { accepted, refused, characters: [one, two, three, four] } = self;
    write!(out, "{accepted} accepted, {refused} refused; ")?;
    write!(out, "characters of 1 to 4 bytes: {one}, {two}, {three}, {four}")
  }
}

impl fmt::Display for Found {
  fn fmt(&self, out: &mut fmt::Formatter) -> fmt::Result {
    let Self { source, call, answer, expected } = self;
    writeln!(out, "source: {}\n{call} gives {answer:?}, not {expected:?}", hex::encode(source))
  }
}
