//! Cores that go by rules of their own, held to the plain reading of sittings: right rules
//! agree with it, and each wrong one is told by a small sitting.

use differential::sittings::Compared;

/// The smallest sitting that tells a wrong rule has at most so many actions.
const MOST_ACTIONS: usize = 4;

/// The rules are told by a small sitting.
pub fn told<T>(name: &str, compared: Compared<T>) {
  let (sitting, found) = compared.different.unwrap_or_else(|| panic!("not told: {name}"));
  println!("{name}: {} actions, {}", sitting.actions.len(), found.what);
  assert_eq!(found.call, sitting.actions.len().checked_sub(1), "{name}\n{sitting}");
  assert!(sitting.actions.len() <= MOST_ACTIONS, "{name}\n{sitting}");
}

/// So is each rule that a fault makes wrong.
pub fn each_told<R, T>(
  faults: &[(&str, fn(&mut R))],
  right: fn() -> R,
  compared: fn(R) -> Compared<T>,
) {
  for &(name, fault) in faults {
    let mut rules = right();
    fault(&mut rules);
    told(name, compared(rules));
  }
}

/// The two readings agree, and all that must be met was.
pub fn agree<T>(compared: Compared<T>, missing: fn(&T) -> Vec<String>) {
  if let Some((sitting, found)) = compared.different {
    panic!("{sitting}{found:?}");
  }
  assert_eq!(missing(&compared.tally), Vec::<String>::new());
}
