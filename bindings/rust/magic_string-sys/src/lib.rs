//! The exported functions of `libmagic_string.a`, as `include/magic_string.h`
//! declares them, the [numbers] that they give, and the [layout] of the memory that is
//! lent to them. The header says what each call does and which numbers it may give;
//! the crate `magic_string` is the safe one over these.
//!
//! With the feature `link`, which is on unless switched off, the archive is linked.

#![no_std]

mod exported;
pub mod layout;
pub mod numbers;

pub use exported::*;

/// What every call gives back: 0 or a refusal's number, and what the call reports: of an
/// edit the cuts that it made and that remain, of a call that fills a buffer the bytes
/// written. The value is 0 where nothing is reported, and after a refusal but for the
/// cuts that remain.
#[repr(C)]
#[derive(Debug, Clone, Copy, PartialEq, Eq)]
pub struct Answer {
  /// 0 if the call was accepted, or one of the [numbers].
  pub number: u32,
  /// What is reported.
  pub value: u32,
}

impl Answer {
  /// Accepted, with nothing to report.
  pub const ACCEPTED: Answer = Answer { number: 0, value: 0 };
  /// The memory holds no well-formed desk.
  pub const NO_DESK: Answer = Answer { number: numbers::NOT_WELL_FORMED, value: 0 };
}
