//! `bench`: the time of each call as a ratio to the Rust's, measured in the same
//! run; whole papers, by exported and by inner calls and as sheets; calls filed and
//! withdrawn; parts frozen; calls marked and their entries read; two lists joined; the check of
//! a desk alone, and that of a text.

mod calls;
mod check;
mod desks;
mod filed;
mod frozen;
#[cfg(feature = "inner")]
mod inner;
mod joined;
mod marks;
#[cfg(feature = "inner")]
mod moved;
mod papers;
mod rust;
mod sheets;
mod texts;
mod timing;

use differential::{Core, cores};

const ABOUT: &str = "\
Each time is the least of repeated rounds, both sides in this run and on this machine.
Each call gets its own copy of the desk, made before the clock starts, with its pieces
and texts at the front of the tables, as calls leave them. Output buffers and, in
whole papers, the tables are lent again as they are: they are not cleared.
The Rust's texts are borrowed, and its reports make a string of their own.
An exported call checks its memory first; 'less check' is its time less that of the
check (`well_formed`) alone. By inner calls, a list of edits has one check in front of
it, and what the desk uses is handed from each to the next, as proved callers do.
The Rust is built with the oracle's stand-ins: std's hash map for rustc_hash, and
plain loops for memchr and simd_utf16_len. With those crates it would be faster.
";

fn main() {
  let mut core = cores::chosen(1);
  println!("core: {}", core.name());
  print!("{ABOUT}");
  for source in [2_048, 16_384] {
    for chunks in [10, 100, 500] {
      calls::print(&mut core, &desks::edited(source, chunks));
    }
  }
  papers::print(&mut core);
  sheets::print(&mut core);
  filed::print(&mut core);
  frozen::print(&mut core);
  marks::print(&mut core);
  joined::print(&mut core);
  #[cfg(feature = "inner")]
  {
    inner::papers(&mut core);
    inner::ends();
    inner::top();
  }
  check::print(&mut core);
  texts::print(&mut core);
}
