//! Rules of marks that are wrong, one in each core.

pub mod filed;
pub mod marking;
pub mod members;
pub mod readings;
pub mod records;
pub mod totals;

use crate::marks_rules::Rules;

/// The rule by its name, and how it is made wrong.
pub type Fault = (&'static str, fn(&mut Rules));
