//! Rules of joining that are wrong, one in each core.

pub mod alone;
pub mod apart;
pub mod lists;
pub mod made;
pub mod space;

use crate::join_rules::Rules;

/// The rule by its name, and how it is made wrong.
pub type Fault = (&'static str, fn(&mut Rules));
