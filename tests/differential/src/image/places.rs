//! Places for blocks of some lengths in one room: in any order, anywhere, apart.

use oracle::random::Random;

use super::encode::Fill;

/// A place for each length. Blocks of length 0 may stand anywhere inside, on top
/// of others and at the very end.
pub fn places(lengths: &[usize], room: usize, fill: Fill, random: &mut Random) -> Vec<usize> {
  let mut order: Vec<usize> = (0..lengths.len()).filter(|&block| lengths[block] > 0).collect();
  let free = room - lengths.iter().sum::<usize>();
  let mut gaps: Vec<usize> = match fill {
    Fill::Front => vec![0; order.len()],
    Fill::Back => vec![free; order.len()],
    Fill::Apart => order.iter().map(|_| random.between(0, free)).collect(),
  };
  gaps.sort();
  if random.one_in(2) {
    shuffle(&mut order, random);
  }
  let mut places: Vec<usize> = lengths.iter().map(|_| empty_place(room, random)).collect();
  let mut used = 0;
  for (block, gap) in order.into_iter().zip(gaps) {
    places[block] = gap + used;
    used += lengths[block];
  }
  places
}

fn empty_place(room: usize, random: &mut Random) -> usize {
  match random.below(4) {
    0 => 0,
    1 => room,
    _ => random.between(0, room),
  }
}

pub fn shuffle<T>(items: &mut [T], random: &mut Random) {
  for last in (1..items.len()).rev() {
    items.swap(last, random.below(last + 1));
  }
}
