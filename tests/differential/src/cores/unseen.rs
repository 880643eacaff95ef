//! Arguments that stand beside an option which says no, and numbers that say yes.

use oracle::{Setting, random::Random};

/// What the call's text or position is where its option says that there is none:
/// the core must not look at it. `yes` is the call's first option and its second
/// where they say yes, any numbers but 0.
#[derive(Debug, Clone)]
pub struct Unseen {
  pub yes: [u32; 2],
  pub position: u32,
  pub text: &'static [u8],
}

impl Unseen {
  pub fn any(random: &mut Random) -> Self {
    let yes = [(); 2].map(|()| [1, 1, 1, 2, 0x100, 0x8000_0000, u32::MAX][random.below(7)]);
    let position = [0, 1, 2, 16_384, u32::MAX, random.number() as u32][random.below(6)];
    let text = random.pick(&[&b""[..], b"\t", b"\xff", b"a\xc3", &[b'x'; 40_000]]);
    Self { yes, position, text }
  }

  /// Nothing out of the ordinary.
  pub const PLAIN: Unseen = Unseen { yes: [1, 1], position: 0, text: b"" };

  /// The switches of an insertion as numbers: left, and front.
  pub fn switches(&self, setting: Setting) -> [u32; 2] {
    let [left, front] = self.yes;
    [if setting.left { left } else { 0 }, if setting.front { front } else { 0 }]
  }
}
