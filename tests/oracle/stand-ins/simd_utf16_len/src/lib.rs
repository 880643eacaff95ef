// Stand-in for the crate simd_utf16_len: a text's length in UTF-16 units.

pub fn utf16_len(text: &str) -> usize {
  text.encode_utf16().count()
}
