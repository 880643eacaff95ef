//! A desk on one line:
//!
//! ```text
//! source HEX head LIST tail LIST chunk START END LIST LIST HEX|none [frozen] chunk ...
//! ```
//!
//! with the chunks in list order, each with its span, intro, outro, replacement and mark. A
//! LIST is its pieces in order, `[61,-,62]`; `[]` has none.

use desk_data::DeskData;

use crate::hex;

pub fn print(desk: &DeskData) -> String {
  let source = hex::encode(desk.source.as_bytes());
  let mut line = format!("source {source} head {} tail {}", list(&desk.head), list(&desk.tail));
  for chunk in &desk.chunks {
    let text = chunk.edited_content.as_ref();
    let text = text.map_or("none".to_string(), |text| hex::encode(text.as_bytes()));
    let (intro, outro) = (list(&chunk.intro), list(&chunk.outro));
    let mark = if chunk.frozen { " frozen" } else { "" };
    line += &format!(" chunk {} {} {intro} {outro} {text}{mark}", chunk.start, chunk.end);
  }
  line
}

fn list(pieces: &[String]) -> String {
  let pieces: Vec<_> = pieces.iter().map(|piece| hex::encode(piece.as_bytes())).collect();
  format!("[{}]", pieces.join(","))
}
