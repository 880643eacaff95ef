//! Orders of a list: places in it, each once.

use oracle::random::Random;

use crate::image::shuffle;

/// A list of so many edits is run in all its orders.
pub const ALL_UP_TO: usize = 4;

/// Of a longer list, so many random orders beside the list's own and the
/// backward one.
const RANDOM: usize = 6;

/// All orders of a short list; of a longer one its own, the backward one and some
/// at random.
pub fn orders(count: usize, random: &mut Random) -> Vec<Vec<usize>> {
  if count <= ALL_UP_TO {
    return all(count);
  }
  let own: Vec<usize> = (0..count).collect();
  let backward = own.iter().rev().copied().collect();
  let shuffled = (0..RANDOM).map(|_| {
    let mut order = own.clone();
    shuffle(&mut order, random);
    order
  });
  [own.clone(), backward].into_iter().chain(shuffled).collect()
}

/// The list's own order first.
fn all(count: usize) -> Vec<Vec<usize>> {
  let Some(last) = count.checked_sub(1) else { return vec![Vec::new()] };
  let shorter = all(last);
  let insert = |place: usize| {
    shorter.iter().map(move |order| {
      let mut order = order.clone();
      order.insert(place, last);
      order
    })
  };
  (0..count).rev().flat_map(insert).collect()
}

#[cfg(test)]
mod tests {
  use super::*;

  #[test]
  fn short_lists_have_all_orders() {
    for (count, factorial) in [(0, 1), (1, 1), (2, 2), (3, 6), (4, 24)] {
      let mut orders = orders(count, &mut Random::new(1));
      assert_eq!(orders[0], (0..count).collect::<Vec<_>>());
      orders.sort();
      orders.dedup();
      assert_eq!(orders.len(), factorial);
      assert!(orders.iter().all(|order| (0..count).all(|place| order.contains(&place))));
    }
  }
}
