//! Cores that read UTF-8 wrongly in one way are told by a part of what `characters` opens:
//! wrong widths by texts and by sequences, and wrong sequences by sequences.

use differential::{
  Answer, Core, Lent, Unseen,
  characters::{EDGES, Found, Openings, at_random},
  cores::StandIn,
};
use oracle::{Call, number};

/// UTF-8 in parts that can be wrong, each by itself.
#[derive(Clone)]
struct Rules {
  /// How many bytes a sequence has, by the leading ones of its first byte; 0 for none.
  lengths: [usize; 9],
  /// How far behind the first of these bytes the next character begins.
  width: fn(&[u8]) -> usize,
  follows: fn(u8) -> bool,
  /// Whether the end may cut a character short.
  cut_short: bool,
  /// The lowest code of a sequence of so many bytes.
  lowest: [u32; 7],
  highest: u32,
  surrogates: bool,
}

const RIGHT: Rules = Rules {
  lengths: [1, 0, 2, 3, 4, 0, 0, 0, 0],
  width: |bytes| width(bytes[0].leading_ones()),
  follows: |byte| byte & 0xc0 == 0x80,
  cut_short: false,
  lowest: [0, 0, 0x80, 0x800, 0x1_0000, 0, 0],
  highest: 0x10_ffff,
  surrogates: false,
};

fn width(ones: u32) -> usize {
  ones.max(1) as usize
}

impl Rules {
  /// The code of the character that these bytes begin with, and its width.
  fn decode(&self, bytes: &[u8]) -> Option<(u32, usize)> {
    let ones = bytes[0].leading_ones();
    let length = self.lengths[ones as usize];
    let mut code = u32::from(bytes[0]) & (0x7f >> ones);
    for at in 1..length {
      let byte = bytes.get(at);
      if !byte.map_or(self.cut_short, |&byte| (self.follows)(byte)) {
        return None;
      }
      code = code << 6 | byte.map_or(0, |byte| u32::from(byte & 0x3f));
    }
    let taken = self.surrogates || !(0xd800..0xe000).contains(&code);
    let scalar = taken && (self.lowest[length]..=self.highest).contains(&code);
    (length > 0 && scalar).then(|| (code, (self.width)(bytes)))
  }

  /// The codes of a text; none for bytes that are not UTF-8.
  fn codes(&self, text: &[u8]) -> Option<Vec<u32>> {
    let mut codes = Vec::new();
    let mut at = 0;
    while at < text.len() {
      let (code, width) = self.decode(&text[at..]).filter(|&(_, width)| width > 0)?;
      codes.push(code);
      at += width;
    }
    Some(codes)
  }
}

/// Reads the source by these rules to open it and to count its UTF-16 units.
struct Reader {
  right: StandIn,
  rules: Rules,
}

impl Core for Reader {
  fn name(&self) -> &'static str {
    "reader"
  }

  fn call(&mut self, lent: &mut Lent, call: &Call, unseen: &Unseen, out: &mut [u8]) -> Answer {
    let answer = self.right.call(lent, call, unseen, out);
    match (call, self.rules.codes(lent.source)) {
      (Call::Open { .. }, None) => Answer { number: number::NOT_UTF8, value: 0 },
      (Call::Open { .. }, Some(_)) => Answer::ACCEPTED,
      (Call::LenUtf16, Some(codes)) => {
        let units = codes.iter().map(|&code| if code < 0x1_0000 { 1 } else { 2 });
        Answer { value: units.sum(), ..answer }
      }
      _ => answer,
    }
  }

  fn well_formed(&mut self, lent: &Lent) -> Answer {
    self.right.well_formed(lent)
  }
}

type Width = fn(&[u8]) -> usize;

const WIDTHS: [(&str, Width); 9] = [
  ("none for one byte", |bytes| bytes[0].leading_ones() as usize),
  ("two for one byte", |bytes| width(bytes[0].leading_ones()).max(2)),
  ("three for two bytes", |bytes| [1, 1, 3, 3, 4][bytes[0].leading_ones() as usize]),
  ("four for three bytes", |bytes| [1, 1, 2, 4, 4][bytes[0].leading_ones() as usize]),
  ("three for four bytes", |bytes| width(bytes[0].leading_ones()).min(3)),
  ("five for four bytes", |bytes| [1, 1, 2, 3, 5][bytes[0].leading_ones() as usize]),
  ("all ones of the first byte", |bytes| width(bytes[0].count_ones())),
  ("the leading zeros", |bytes| width(bytes[0].leading_zeros())),
  ("the leading ones of the second byte", |bytes| {
    width(bytes.get(1).unwrap_or(&bytes[0]).leading_ones())
  }),
];

const SEQUENCES: [(&str, Rules); 16] = [
  ("a last character cut short", Rules { cut_short: true, ..RIGHT }),
  ("a following byte alone", Rules { lengths: [1, 1, 2, 3, 4, 0, 0, 0, 0], ..RIGHT }),
  ("five bytes", Rules { lengths: [1, 0, 2, 3, 4, 5, 0, 0, 0], ..RIGHT }),
  ("six bytes", Rules { lengths: [1, 0, 2, 3, 4, 0, 6, 0, 0], ..RIGHT }),
  ("four bytes from F8 on", Rules { lengths: [1, 0, 2, 3, 4, 4, 4, 4, 4], ..RIGHT }),
  ("no four bytes", Rules { lengths: [1, 0, 2, 3, 0, 0, 0, 0, 0], ..RIGHT }),
  ("any byte follows", Rules { follows: |_| true, ..RIGHT }),
  ("any from 80 on follows", Rules { follows: |byte| 0x80 <= byte, ..RIGHT }),
  ("any up to BF follows", Rules { follows: |byte| byte <= 0xbf, ..RIGHT }),
  ("BF does not follow", Rules { follows: |byte| (0x80..0xbf).contains(&byte), ..RIGHT }),
  ("two bytes overlong", Rules { lowest: [0, 0, 0, 0x800, 0x1_0000, 0, 0], ..RIGHT }),
  ("three bytes overlong", Rules { lowest: [0, 0, 0x80, 0, 0x1_0000, 0, 0], ..RIGHT }),
  ("four bytes overlong", Rules { lowest: [0, 0, 0x80, 0x800, 0, 0, 0], ..RIGHT }),
  ("surrogates", Rules { surrogates: true, ..RIGHT }),
  ("110000", Rules { highest: 0x11_0000, ..RIGHT }),
  ("no 10FFFF", Rules { highest: 0x10_fffe, ..RIGHT }),
];

/// Opens a part of what the program does.
type Part<C> = fn(&mut Openings<C>) -> Result<(), Found>;

fn some_texts<C: Core>(openings: &mut Openings<C>) -> Result<(), Found> {
  openings.alone((char::MIN..=char::MAX).step_by(101))?;
  openings.texts("texts in order", char::MIN..=char::MAX)?;
  openings.texts("texts at random", at_random(8).take(100_000))
}

fn some_sequences<C: Core>(openings: &mut Openings<C>) -> Result<(), Found> {
  let any: Vec<u8> = (0..=u8::MAX).collect();
  openings.sequences(&[&any])?;
  openings.sequences(&[&any, EDGES])?;
  openings.sequences(&[&any, EDGES, EDGES])?;
  openings.sequences(&[&any[0xe0..], EDGES, EDGES, EDGES])?;
  openings.sequences(&[&any[0xf0..], EDGES, EDGES, EDGES, EDGES])?;
  openings.sequences(&[&any[0xf8..], EDGES, EDGES, EDGES, EDGES, EDGES])
}

/// The rules are told by that part.
fn told(name: &str, rules: &Rules, part: Part<Reader>) {
  let mut core = Reader { right: StandIn::new(1), rules: rules.clone() };
  let found = part(&mut Openings::new(&mut core, 1)).err();
  println!("{name}: {}", found.unwrap_or_else(|| panic!("not told: {name}")));
}

#[test]
fn wrong_widths_are_told() {
  for (name, width) in WIDTHS {
    let rules = Rules { width, ..RIGHT };
    told(name, &rules, some_texts);
    told(name, &rules, some_sequences);
  }
}

#[test]
fn wrong_sequences_are_told() {
  for (name, rules) in &SEQUENCES {
    told(name, rules, some_sequences);
  }
}

/// The core is not told by either part, and all characters are met.
fn not_told(core: &mut impl Core) {
  let mut openings = Openings::new(core, 2);
  some_texts(&mut openings).unwrap_or_else(|found| panic!("{found}"));
  some_sequences(&mut openings).unwrap_or_else(|found| panic!("{found}"));
  let in_order = openings.kinds.iter().find(|(kind, _)| kind == "texts in order");
  let widths = in_order.map(|(_, counts)| counts.characters);
  assert_eq!(widths, Some([128, 1_920, 61_440, 1_048_576]));
}

#[test]
fn right_ones_are_not() {
  not_told(&mut StandIn::new(2));
  not_told(&mut Reader { right: StandIn::new(2), rules: RIGHT });
}
