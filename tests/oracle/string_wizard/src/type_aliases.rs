// Stand-in for src/type_aliases.rs, which was not given: the name that
// magic_string/mod.rs takes from it.

use crate::chunk::{Chunk, ChunkIdx};

pub type IndexChunks<'str> = oxc_index::IndexVec<ChunkIdx, Chunk<'str>>;
