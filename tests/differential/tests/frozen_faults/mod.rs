//! Rules of frozen parts that are wrong, one in each core.

pub mod desks;
pub mod freezings;
pub mod marks;
pub mod ranges;
pub mod records;

use crate::frozen_rules::Rules;

/// The rule by its name, and how it is made wrong.
pub type Fault = (&'static str, fn(&mut Rules));
