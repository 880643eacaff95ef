//! Exported functions that an archive which is not complete does not have.

use oracle::Call;

use crate::cores::function;

include!(concat!(env!("OUT_DIR"), "/missing.rs"));

/// Whether the archive has the call.
pub fn has(call: &Call) -> bool {
  MISSING.is_empty() || has_function(&function(call))
}

/// Whether the archive has the function with this name.
pub fn has_function(name: &str) -> bool {
  MISSING.is_empty() || !MISSING.contains(&format!("magic_string_{name}").as_str())
}
