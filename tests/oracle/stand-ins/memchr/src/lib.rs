// Stand-in for the crate memchr: the one function that `last_line` uses.

/// The last place of `needle` in `haystack`.
pub fn memrchr(needle: u8, haystack: &[u8]) -> Option<usize> {
  haystack.iter().rposition(|&byte| byte == needle)
}
