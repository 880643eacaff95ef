//! With the feature `link`, links libmagic_string.a from the folder that the
//! variable MAGIC_STRING_LIB names (a relative one from where cargo is called), else
//! from where `./archive` leaves it. Build scripts of crates that depend on this one get
//! the archive's path in DEP_MAGIC_STRING_ARCHIVE.

use std::{
  env,
  path::{Path, PathBuf},
};

fn main() {
  println!("cargo::rerun-if-changed=build.rs");
  if env::var_os("CARGO_FEATURE_LINK").is_none() {
    return;
  }
  println!("cargo::rerun-if-env-changed=MAGIC_STRING_LIB");
  let folder = folder();
  let archive = folder.join("libmagic_string.a");
  println!("cargo::rerun-if-changed={}", archive.display());
  if archive.is_file() {
    println!("cargo::metadata=archive={}", archive.display());
    println!("cargo::rustc-link-search=native={}", folder.display());
    println!("cargo::rustc-link-lib=static=magic_string");
  } else {
    println!(
      "cargo::error={} is not there: `./archive` builds it, or MAGIC_STRING_LIB names its folder",
      archive.display()
    );
  }
}

fn folder() -> PathBuf {
  let Some(named) = env::var_os("MAGIC_STRING_LIB").map(PathBuf::from) else {
    return Path::new(env!("CARGO_MANIFEST_DIR")).join("../../../target/staticlib");
  };
  // Cargo runs a build script in its package's folder.
  match env::var_os("PWD") {
    Some(called_from) if named.is_relative() => {
      println!("cargo::rerun-if-env-changed=PWD");
      Path::new(&called_from).join(named)
    }
    _ => named,
  }
}
