//! The plain reading of sheets gives what is written down here, and the comparison
//! finds no difference where there is none.

use std::{fs, path::Path, time::Duration};

use differential::{
  cores::StandIn,
  sheets::{
    Compared, chosen, compare,
    fields::Fields,
    lent::{REFUSALS, refusals},
    reading::{self, printed, read},
  },
};
use oracle::{hex, random::Random};

/// What the program prints for a sheet in hexadecimal, blanks left out.
fn printed_for(sheet: &str) -> String {
  let sheet = sheet.replace(' ', "").to_lowercase();
  String::from_utf8(printed(&hex::decode(&sheet).expect("hexadecimal"))).expect("UTF-8")
}

#[test]
fn written_answers() {
  let written = [
    // The request's example.
    ("01 0003 616263 000D 08 00000000 00000002 00000003", "8 0\ncab"),
    // No input, no source, no record.
    ("-", "0 16\n"),
    ("01 0000", ""),
    ("01 0003 616263", "abc"),
    // An opening that is refused.
    ("01 0001 FF", "0 1\n"),
    // Each kind once; the update takes the piece that was appended.
    (
      "01 0003 616263 \
       0006 04 00000001 3C \
       000A 02 00000000 00000001 41 \
       0006 05 00000001 35 \
       0006 06 00000002 36 \
       0006 07 00000001 37 \
       0009 01 00000002 00000003 \
       0009 03 00000002 00000003 \
       000D 08 00000000 00000001 00000003",
      "4 0\n2 0\n5 0\n6 0\n7 0\n1 0\n3 0\n8 0\n75b6cA",
    ),
    // Calls are made behind refused ones, whose texts need not be UTF-8.
    (
      "01 0001 61 0006 04 00000000 FF 0009 01 00000001 00000000 0006 04 00000001 62",
      "4 1\n1 4\n4 0\nab",
    ),
    // The version, a length too short and too long, a kind, and a byte too many.
    ("00 0000", "0 16\n"),
    ("01 0000 0008 01 00000000 000000", "0 16\n"),
    ("01 0000 000A 01 00000000 00000000", "0 16\n"),
    ("01 0000 000A 01 00000000 00000000 00", "0 16\n"),
    ("01 0000 0009 09 00000000 00000000", "0 16\n"),
    ("01 0000 0009 01 00000000 00000000 00", "0 16\n"),
    ("01 0000 0000", "0 16\n"),
  ];
  for (sheet, expected) in written {
    assert_eq!(printed_for(sheet), expected, "{sheet}");
  }
}

/// The sheets of examples/sheets, each with what the program prints beside it.
#[test]
fn examples() {
  let folder = Path::new(env!("CARGO_MANIFEST_DIR")).join("../../examples/sheets");
  let files = fs::read_dir(folder).expect("the folder").map(|file| file.expect("a file").path());
  let sheets: Vec<_> =
    files.filter(|file| file.extension().is_some_and(|end| end == "sheet")).collect();
  assert!(!sheets.is_empty());
  for file in sheets {
    let sheet = fs::read(&file).expect("a sheet");
    let expected = fs::read(file.with_extension("expected")).expect("its output");
    assert_eq!(printed(&sheet), expected, "{}", file.display());
  }
}

/// Of several refusals that are due, the first in the order is given.
#[test]
fn refusals_come_in_their_order() {
  for (choice, handed) in refusals().iter().enumerate() {
    let mut due = (0..REFUSALS.len()).filter(|bit| choice >> bit & 1 == 1);
    let ran = reading::run(&handed.sheet, handed.full_tables(), handed.room);
    assert_eq!(ran.err(), due.next().map(|bit| REFUSALS[bit]), "{handed}");
  }
}

/// The fields of any bytes are those bytes, and sheets that are made of calls say them.
#[test]
fn fields_are_read_back() {
  for handed in chosen(&mut Random::new(1)) {
    if let Some(fields) = Fields::split(&handed.sheet) {
      assert_eq!(fields.bytes(), handed.sheet);
    }
    if let Some(sheet) = read(&handed.sheet) {
      let calls: Vec<_> = sheet.records.into_iter().map(|(_, call)| call).collect();
      assert_eq!(Fields::of(&sheet.source, &calls).bytes(), handed.sheet);
    }
  }
}

#[test]
fn no_sheet_differs_and_everything_is_met() {
  let Compared { tally, different } = compare(&mut StandIn::new(2), None, 2, 3_000, Duration::MAX);
  if let Some((handed, found)) = different {
    panic!("{handed}{found}");
  }
  assert_eq!(tally.missing(), Vec::<String>::new());
}
