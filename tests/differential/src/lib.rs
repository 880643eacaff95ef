//! Compares a core (the exported functions, or a stand-in) with the oracle: call
//! by call on random scripts, and image by image on damaged memory; the orders of
//! lists of edits with each other; sheets, records of filed calls, frozen parts, marks and
//! joins of two lists with plain readings of document 02; and the reading of UTF-8 with Rust's
//! own.

pub mod any_order;
pub mod arguments;
pub mod characters;
pub mod compare;
pub mod cores;
pub mod damage;
mod drop_rows;
mod every_call;
#[cfg(feature = "archive")]
mod ffi;
pub mod frozen;
pub mod image;
pub mod joins;
pub mod layout;
mod lent;
pub mod made;
pub mod marks;
#[cfg(feature = "archive")]
mod missing;
pub mod out;
pub mod paper;
pub mod papers;
pub mod program;
pub mod run;
pub mod sheets;
pub mod shrink;
pub mod sittings;
pub mod sizes;
pub mod step;
pub mod tally;
mod well_formed;

pub use cores::{Core, Unseen};
pub use image::Image;
pub use lent::{Lent, LentRecord, NoCalls};
pub use magic_string_sys::Answer;
pub use oracle::keeps;
pub use paper::{Made, Paper, Start};
pub use sizes::Sizes;
pub use tally::{Met, Tally};
pub use well_formed::{holds_desk, well_formed};
