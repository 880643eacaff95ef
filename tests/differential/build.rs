//! Links archives. With the feature `archive` magic_string-sys links
//! libmagic_string.a, and what it lacks is looked for here: a function that the
//! archive does not have is an error, unless MAGIC_STRING_PARTIAL is set: then its
//! calls are passed over. With the feature `inner` libinner_calls.a is linked from the
//! folder that the variable MAGIC_STRING_LIB names.

use std::{env, fs, path::Path};

use magic_string_sys::NAMES;

/// What every archive has.
const NEEDED: [&str; 2] = ["magic_string_open", "magic_string_well_formed"];

fn main() {
  println!("cargo::rerun-if-changed=build.rs");
  println!("cargo::rerun-if-env-changed=MAGIC_STRING_LIB");
  println!("cargo::rerun-if-env-changed=MAGIC_STRING_PARTIAL");
  for (feature, prepare) in [("ARCHIVE", exported as fn() -> _), ("INNER", inner)] {
    if env::var_os(format!("CARGO_FEATURE_{feature}")).is_some()
      && let Err(message) = prepare()
    {
      println!("cargo::error={message}");
    }
  }
}

/// Links the inner functions.
fn inner() -> Result<(), String> {
  let folder = env::var("MAGIC_STRING_LIB")
    .map_err(|_| "MAGIC_STRING_LIB must name the folder of libinner_calls.a")?;
  // A relative folder is meant from where cargo is called, which is not here.
  let called_from = env::var("PWD").unwrap_or_default();
  let folder = Path::new(&called_from).join(folder);
  let archive = folder.join("libinner_calls.a");
  println!("cargo::rerun-if-changed={}", archive.display());
  println!("cargo::rustc-link-search=native={}", folder.display());
  println!("cargo::rustc-link-lib=static=inner_calls");
  Ok(())
}

/// Looks for the exported functions, and stands in for those that may be missing.
fn exported() -> Result<(), String> {
  let archive = env::var("DEP_MAGIC_STRING_ARCHIVE").map_err(|error| error.to_string())?;
  println!("cargo::rerun-if-changed={archive}");
  let bytes = fs::read(&archive).map_err(|error| format!("{archive}: {error}"))?;
  let missing: Vec<&str> = NAMES.iter().copied().filter(|name| !has_symbol(&bytes, name)).collect();
  if missing.iter().any(|name| NEEDED.contains(name)) {
    return Err(format!("the archive does not have all of {NEEDED:?}"));
  }
  if !missing.is_empty() && env::var_os("MAGIC_STRING_PARTIAL").is_none() {
    return Err(format!("the archive does not have {missing:?}; MAGIC_STRING_PARTIAL passes over"));
  }
  let out = env::var("OUT_DIR").map_err(|error| error.to_string())?;
  let stand_ins = stand_ins(&missing);
  fs::write(Path::new(&out).join("missing.rs"), stand_ins).map_err(|error| error.to_string())?;
  Ok(())
}

/// Whether the name stands in a table of symbols, alone or behind the name of its
/// section.
fn has_symbol(archive: &[u8], name: &str) -> bool {
  let symbol = [name.as_bytes(), b"\0"].concat();
  let in_name = |byte: u8| byte == b'_' || byte.is_ascii_alphanumeric();
  let mut places = archive.windows(1 + symbol.len());
  places.any(|place| !in_name(place[0]) && place[1..] == symbol)
}

/// Functions of the missing names, so that the program links. None is called.
fn stand_ins(missing: &[&str]) -> String {
  let functions = missing.iter().map(|name| {
    format!("#[unsafe(no_mangle)]\nextern \"C\" fn {name}() {{\n  std::process::abort();\n}}\n")
  });
  let functions: String = functions.collect();
  format!("pub const MISSING: &[&str] = &{missing:?};\n{functions}")
}
