// Stand-in for src/joiner.rs, which was not given: lib.rs exports these two
// names. Nothing uses them.

pub struct Joiner;

pub struct JoinerOptions;
