//! The settings of an insertion, each with the Rust's function of its name.

use std::borrow::Cow;

use string_wizard::MagicString;

/// The two switches: the left or the right side of the position, and the front or the
/// back of the list of pieces there.
#[derive(Debug, Clone, Copy, PartialEq, Eq)]
pub struct Setting {
  pub left: bool,
  pub front: bool,
}

pub const APPEND_LEFT: Setting = Setting { left: true, front: false };
pub const APPEND_RIGHT: Setting = Setting { left: false, front: false };
pub const PREPEND_LEFT: Setting = Setting { left: true, front: true };
pub const PREPEND_RIGHT: Setting = Setting { left: false, front: true };

/// In the order of a sheet's kinds, 4 to 7.
pub const SETTINGS: [Setting; 4] = [APPEND_LEFT, APPEND_RIGHT, PREPEND_LEFT, PREPEND_RIGHT];

impl Setting {
  pub fn name(self) -> &'static str {
    match self {
      APPEND_LEFT => "append_left",
      APPEND_RIGHT => "append_right",
      PREPEND_LEFT => "prepend_left",
      PREPEND_RIGHT => "prepend_right",
    }
  }

  pub fn named(name: &str) -> Option<Self> {
    SETTINGS.into_iter().find(|setting| setting.name() == name)
  }

  /// The kind of a sheet's record with this insertion.
  pub fn kind(self) -> u8 {
    let place = SETTINGS.iter().position(|&setting| setting == self);
    4 + place.expect("one of the four") as u8
  }

  /// Makes the insertion by the function of the same name.
  pub fn insert<'a>(
    self,
    desk: &'a mut MagicString<'static>,
    at: u32,
    text: impl Into<Cow<'static, str>>,
  ) -> Result<&'a mut MagicString<'static>, String> {
    match self {
      APPEND_LEFT => desk.append_left(at, text),
      APPEND_RIGHT => desk.append_right(at, text),
      PREPEND_LEFT => desk.prepend_left(at, text),
      PREPEND_RIGHT => desk.prepend_right(at, text),
    }
  }
}
