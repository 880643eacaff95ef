//! A stack of its own for one call, painted before it: how far down the paint is
//! gone afterwards is how much of it the call used.

use std::{arch::asm, hint::black_box};

/// Far more than any call may use.
const WORDS: usize = 1 << 17;
const PAINT: u64 = 0x5ca1_ab1e_0ddb_a115;

#[derive(Clone)]
pub struct Painted {
  words: Vec<u64>,
  /// The lowest word that the last call wrote: from here on the paint is gone.
  lowest: usize,
}

impl Painted {
  pub fn new() -> Self {
    Self { words: vec![PAINT; WORDS], lowest: WORDS }
  }

  /// Does the work on this stack. How many bytes of it were used.
  pub fn used_by(&mut self, mut work: impl FnMut()) -> usize {
    self.words[self.lowest..].fill(PAINT);
    let mut work: &mut dyn FnMut() = &mut work;
    let top = self.words.as_mut_ptr_range().end.addr() & !15;
    // The stack pointer is kept in a register that every function hands back as it
    // got it. `enter` does not unwind.
    unsafe {
      asm!(
        "mov r12, rsp",
        "mov rsp, {top}",
        "call {enter}",
        "mov rsp, r12",
        top = in(reg) top,
        enter = sym enter,
        in("rdi") &raw mut work,
        out("r12") _,
        clobber_abi("C"),
      );
    }
    self.lowest = self.words.iter().take_while(|&&word| word == PAINT).count();
    assert!(self.lowest > 0, "the painted stack is too short");
    (WORDS - self.lowest) * size_of::<u64>()
  }
}

/// Whether a function with an array on the stack is seen to use as much.
pub fn is_right() -> bool {
  const BYTES: usize = 50_000;
  #[inline(never)]
  fn fill() {
    black_box(&mut [1_u8; BYTES]);
  }
  let mut painted = Painted::new();
  let [much, little] = [painted.used_by(fill), painted.used_by(|| ())];
  (BYTES..BYTES + 1_000).contains(&much) && little < 1_000
}

extern "C" fn enter(work: *mut &mut dyn FnMut()) {
  unsafe { (*work)() }
}
