//! Cores that run sheets wrongly in one way are told.

mod sheet_rules;

use std::time::Duration;

use differential::{
  cores::StandIn,
  damage::{self, Judge},
  layout::*,
  sheets::{Compared, Handed, compare},
};
use oracle::{Call, apply};
use sheet_rules::{Rules, Wrong, fits, fresh, make, put};

fn compared(rules: Rules) -> Compared {
  let mut core = Wrong { right: StandIn::new(1), rules };
  compare(&mut core, None, 5, 1_500, Duration::MAX)
}

/// The smallest sheet found that tells the rules.
fn told(name: &str, rules: Rules) -> Handed {
  let (handed, found) = compared(rules).different.unwrap_or_else(|| panic!("not told: {name}"));
  println!("{name}: {} bytes, {found}", handed.sheet.len());
  handed
}

/// A rule that is wrong, and the most bytes of the smallest sheet that tells it.
type Fault = (&'static str, usize, fn(&mut Rules));

const OF_SHEETS: [Fault; 22] = [
  ("a length counts itself", 30, |rules| rules.counted = 2),
  ("lengths with the low byte first", 30, |rules| rules.length = u16::from_le_bytes),
  ("positions with the low byte first", 30, |rules| rules.position = u32::from_le_bytes),
  ("positions of 31 bits", 30, |rules| {
    rules.position = |field| u32::from_be_bytes(field) & 0x7fff_ffff;
  }),
  ("a text behind a removal", 30, |rules| {
    rules.fits = |kind, len| fits(kind, len) || kind == 1 && len > 9;
  }),
  ("a text behind a reset", 30, |rules| {
    rules.fits = |kind, len| fits(kind, len) || kind == 3 && len > 9;
  }),
  ("a text behind a move", 30, |rules| {
    rules.fits = |kind, len| fits(kind, len) || kind == 8 && len > 13;
  }),
  ("a move whose last position is missing", 30, |rules| {
    rules.fits = |kind, len| fits(kind, len) || kind == 8 && len == 9;
  }),
  ("an update whose last byte is missing", 30, |rules| {
    rules.fits = |kind, len| fits(kind, len) || kind == 2 && len == 8;
  }),
  ("no empty text", 30, |rules| {
    rules.fits = |kind, len| fits(kind, len) && (kind < 4 || kind == 8 || len > 5);
  }),
  ("a text that is not UTF-8 is 16", 30, |rules| {
    rules.text = |text| str::from_utf8(text).is_ok();
  }),
  ("no version", 30, |rules| rules.version = |_| true),
  ("version 0 too", 30, |rules| rules.version = |version| version <= 1),
  ("kind 9 is a removal", 30, |rules| rules.kinds[9] = 1),
  ("seven bits of a kind", 30, |rules| (0..9).for_each(|kind| rules.kinds[0x80 + kind] = kind)),
  ("a byte behind the last record", 30, |rules| rules.passed_over = 1),
  ("201 records", 2_300, |rules| rules.most_records = 201),
  ("199 records", 2_300, |rules| rules.most_records = 199),
  ("57,345 bytes", 57_345, |rules| rules.most_sheet = 57_345),
  ("57,343 bytes", 57_344, |rules| rules.most_sheet = 57_343),
  ("a source of 16,385 bytes", 16_388, |rules| rules.most_source += 1),
  ("a source of 16,383 bytes", 16_387, |rules| rules.most_source -= 1),
];

const OF_RUNS: [Fault; 14] = [
  ("an update without overwrite", 30, |rules| rules.overwrite = 0),
  ("a run stops after a refusal", 30, |rules| {
    rules.make = |desk, calls| {
      let answers = make(&mut desk.clone(), calls);
      let made = answers.iter().position(|&answer| answer != 0).map_or(calls.len(), |at| at + 1);
      make(desk, &calls[..made])
    };
  }),
  ("behind a refusal nothing is made", 30, |rules| {
    rules.make = |desk, calls| {
      let mut refused = false;
      let answer = |call| {
        let answer = if refused { 0 } else { apply(desk, call).number as u8 };
        refused |= answer != 0;
        answer
      };
      calls.iter().map(answer).collect()
    };
  }),
  ("what stays of a refused call is undone", 30, |rules| {
    rules.make = |desk, calls| {
      let answer = |call| {
        let before = desk.clone();
        let answer = apply(desk, call).number as u8;
        if answer != 0 {
          *desk = before;
        }
        answer
      };
      calls.iter().map(answer).collect()
    };
  }),
  ("the last call is made twice", 30, |rules| {
    rules.make = |desk, calls| {
      let answers = make(desk, calls);
      make(desk, &calls[calls.len().saturating_sub(1)..]);
      answers
    };
  }),
  ("the last record first", 30, |rules| {
    rules.make = |desk, calls| {
      let backward: Vec<Call> = calls.iter().rev().cloned().collect();
      make(desk, &backward).into_iter().rev().collect()
    };
  }),
  ("16 when the bad record is reached", 30, |rules| {
    rules.refused = |said, number, lent, answers| {
      if let (16, Some(mut desk)) = (number, fresh(&said.source)) {
        let made = make(&mut desk, &said.calls);
        answers.iter_mut().zip(made).for_each(|(answer, made)| *answer = made);
        put(&desk, lent);
      }
    };
  }),
  ("answers are written before 14 is seen", 30, |rules| {
    rules.refused = |said, number, _, answers| {
      if let (14, Some(mut desk)) = (number, fresh(&said.source)) {
        let made = make(&mut desk, &said.calls);
        answers.iter_mut().zip(made).for_each(|(answer, made)| *answer = made);
      }
    };
  }),
  ("the answers are cleared before a refusal", 30, |rules| {
    rules.refused = |_, _, _, answers| answers.fill(0);
  }),
  ("the desk is opened before 14", 30, |rules| {
    rules.refused = |said, number, lent, _| {
      if let (14, Some(desk)) = (number, fresh(&said.source)) {
        put(&desk, lent);
      }
    };
  }),
  ("all answers that are lent are written", 30, |rules| {
    rules.behind = |made, answers| answers[made..].fill(0);
  }),
  ("the value counts accepted calls", 30, |rules| {
    rules.value = |answers| answers.iter().filter(|&&answer| answer == 0).count();
  }),
  ("the tables must hold a desk", 30, |rules| {
    rules.takes = |lent| {
      let full = (Rules::right().takes)(lent);
      full && (1..=MOST_CHUNKS as u32).contains(&lent.chunks[START])
    };
  }),
  ("a longer store is taken", 30, |rules| {
    rules.takes = |lent| {
      let lengths = [lent.chunks.len(), lent.pieces.len()];
      lengths == [CHUNK_WORDS, PIECE_WORDS] && lent.store.len() >= STORE_BYTES
    };
  }),
];

/// The rules that the second reading begins with are the plain reading's.
#[test]
fn the_two_readings_agree() {
  let Compared { tally, different } = compared(Rules::right());
  if let Some((handed, found)) = different {
    panic!("{handed}{found}");
  }
  assert_eq!(tally.missing(), Vec::<String>::new());
}

#[test]
fn wrong_rules_are_told() {
  for (name, most, fault) in OF_SHEETS.into_iter().chain(OF_RUNS) {
    let mut rules = Rules::right();
    fault(&mut rules);
    let handed = told(name, rules);
    assert!(handed.sheet.len() <= most, "{name}\n{handed}");
  }
}

/// Each two refusals, the later one tested before the other.
#[test]
fn other_orders_of_refusals_are_told() {
  for first in 0..5 {
    for later in first + 1..5 {
      let mut rules = Rules::right();
      rules.order[first..=later].rotate_right(1);
      told(&format!("{:?}", rules.order), rules);
    }
  }
}

#[test]
fn exchanged_kinds_are_told() {
  for one in 1..9 {
    for other in one + 1..9 {
      let mut rules = Rules::right();
      rules.kinds.swap(one, other);
      let handed = told(&format!("kinds {one} and {other}"), rules);
      assert!(handed.sheet.len() <= 30, "{handed}");
    }
  }
}

/// Damaged memory tells runs that look at more or less than the tables' lengths.
#[test]
fn damage_tells_what_a_run_looks_at() {
  for name in ["the tables must hold a desk", "a longer store is taken"] {
    let (_, _, fault) = OF_RUNS.into_iter().find(|fault| fault.0 == name).expect("the fault");
    let mut core = Wrong { right: StandIn::new(1), rules: Rules::right() };
    fault(&mut core.rules);
    assert!(damage::all(&mut Judge::new(&mut core, 6), 6).is_err(), "not told: {name}");
  }
}
