//! The oracle's list of numbers is that of magic_string-sys.

use magic_string_sys::numbers::NUMBERS;

const ORACLE: &str = include_str!("../../oracle/src/number.rs");

#[test]
fn one_list_of_numbers() {
  let constants = ORACLE.lines().filter_map(|line| line.strip_prefix("pub const "));
  let listed: Vec<(&str, u32)> = constants
    .filter_map(|constant| constant.strip_suffix(';')?.split_once(": u32 = "))
    .map(|(name, number)| (name, number.parse().expect("a number")))
    .collect();
  assert_eq!(listed.split_first(), Some((&("ACCEPTED", 0), NUMBERS)));
}
