//! The samples of examples/sheets: a script makes its sheet, and the sheet makes the
//! script again, without its comments and blank lines.

use std::{collections::BTreeSet, fs, path::Path};

use sheet_script::{to_script, to_sheet};

const FOLDER: &str = concat!(env!("CARGO_MANIFEST_DIR"), "/../../../examples/sheets");

/// The names of the samples that have a file of this kind.
fn names(kind: &str) -> BTreeSet<String> {
  let files = fs::read_dir(FOLDER).unwrap().map(|entry| entry.unwrap().path());
  let of_kind = files.filter(|file| file.extension().is_some_and(|extension| extension == kind));
  of_kind.map(|file| file.file_stem().unwrap().to_str().unwrap().to_string()).collect()
}

fn content(name: &str, kind: &str) -> Vec<u8> {
  let file = Path::new(FOLDER).join(format!("{name}.{kind}"));
  fs::read(&file).unwrap_or_else(|error| panic!("{}: {error}", file.display()))
}

#[test]
fn a_script_and_its_sheet() {
  let scripts = names("script");
  assert!(!scripts.is_empty());
  for name in scripts {
    let (script, sheet) = (content(&name, "script"), content(&name, "sheet"));
    assert_eq!(to_sheet(&script).unwrap(), sheet, "{name}");
    let script = String::from_utf8(script).unwrap();
    let calls = script.lines().filter(|line| !line.is_empty() && !line.starts_with('#'));
    assert_eq!(to_script(&sheet).unwrap().lines().collect::<Vec<_>>(), calls.collect::<Vec<_>>());
  }
}

/// A sample is a sheet and what the program prints of it, and a script, unless the
/// sheet breaks a rule.
#[test]
fn every_sample_is_whole() {
  let (scripts, sheets) = (names("script"), names("sheet"));
  assert_eq!(sheets, names("expected"));
  for name in &sheets {
    let is_sheet = to_script(&content(name, "sheet")).is_ok();
    assert_eq!(scripts.contains(name), is_sheet, "{name}");
  }
}
