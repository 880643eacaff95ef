//! string_wizard 1.2.16, unchanged, behind document 01's calls and numbers.
//!
//! [`apply`] makes one [`Call`] on a [`Desk`] and gives its [`Answer`]: the
//! number in document 01's order, what the call reports and what it writes.
//! Answer 2 (memory that is not a desk) has no counterpart here.

pub mod answer;
pub mod antt;
pub mod call;
pub mod check;
pub mod cuts;
pub mod desk;
pub mod dump;
pub mod every_call;
pub mod frozen;
pub mod generate;
pub mod hex;
pub mod keeps;
pub mod number;
pub mod parse;
pub mod random;
pub mod replay;
pub mod script;
pub mod setting;

pub use answer::Answer;
pub use call::Call;
pub use cuts::Cut;
pub use desk::{Desk, Limits, apply};
pub use desk_data::{ChunkData, Counts, DeskData};
pub use every_call::{every_call, insertions, reports};
pub use parse::parse;
pub use script::Script;
pub use setting::{APPEND_LEFT, APPEND_RIGHT, PREPEND_LEFT, PREPEND_RIGHT, SETTINGS, Setting};
