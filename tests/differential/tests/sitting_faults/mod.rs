//! Rules of filing and withdrawing that are wrong, one in each core.

pub mod filings;
pub mod records;
pub mod withdrawals;

use crate::sitting_rules::Rules;

/// The rule by its name, and how it is made wrong.
pub type Fault = (&'static str, fn(&mut Rules));
