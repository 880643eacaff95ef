//! One damaged image on both sides.

use std::{collections::BTreeMap, fmt};

use oracle::{Call, Desk, random::Random};

use crate::{
  Answer, Core, Image, Made, Sizes, Unseen,
  cores::verdict,
  every_call, holds_desk, image,
  joins::{
    Lists, due,
    run::{Order, join},
  },
  layout::*,
  out::Out,
  sheets::{
    fields::{Fields, kind},
    run::run_in,
  },
  sittings::{Memory, Sides, Written, call_bytes, fresh},
  step::Both,
};

/// What was counted, by kind of damage: images that are well formed all the
/// same, and images that are not.
#[derive(Debug, Clone, Default)]
pub struct Verdicts {
  pub kinds: BTreeMap<&'static str, [u64; 2]>,
  pub calls: u64,
}

impl Verdicts {
  /// Images of all kinds that are well formed, and that are not.
  pub fn totals(&self) -> [u64; 2] {
    [0, 1].map(|verdict| self.kinds.values().map(|counts| counts[verdict]).sum())
  }
}

/// An image on which the core is wrong.
#[derive(Debug, Clone)]
pub struct Found {
  kind: &'static str,
  what: String,
  image: Box<Image>,
}

pub struct Judge<'a, C> {
  core: &'a mut C,
  random: Random,
  /// Calls whose arguments are in order, and calls whose are not.
  every: [Vec<Call>; 2],
  /// Those of the first that a sheet can have.
  records: Vec<Call>,
  /// A record of them, which keeps a fresh desk over a source.
  filed: (String, Memory),
  /// The same, which keeps the image, and the sum of its marks.
  keeping: (Memory, u32),
  /// Lists that are joined: those that are refused for everything at once, and less.
  joined: Vec<Lists>,
  before: Image,
  pub verdicts: Verdicts,
}

impl<'a, C: Core> Judge<'a, C> {
  pub fn new(core: &'a mut C, seed: u64) -> Self {
    let mut random = Random::new(seed);
    let before = Image::junk(Vec::new(), &mut random);
    let mut every = [every_call::accepted(), every_call::refused()];
    let mut records = every[0].clone();
    records.retain(|call| kind(call).is_some());
    every.iter_mut().for_each(|calls| calls.retain(|call| core.has(call)));
    let memory = Memory::of(&Written::calls(&records), "", &mut random);
    let total = memory.marks()[..records.len()].iter().map(|&marks| u32::from(marks)).sum();
    let (filed, keeping) = ((String::new(), memory.clone()), (memory, total));
    let joined = due::choices(due::Place::Across).into_iter().map(|pair| pair.lists).collect();
    let verdicts = Verdicts::default();
    Self { core, random, every, records, filed, keeping, joined, before, verdicts }
  }

  /// Judges the image, which is left as it is.
  pub fn image(&mut self, kind: &'static str, image: &mut Image) -> Result<(), Found> {
    self.before.copy_from(image);
    let holds = verdict(self.core, &image.lend()) == Answer::ACCEPTED;
    self.verdicts.kinds.entry(kind).or_default()[!holds as usize] += 1;
    let judged = self
      .verdict(image, holds)
      .and_then(|()| self.open(image))
      .and_then(|()| self.run_sheet(image))
      .and_then(|()| self.file_and_withdraw(image))
      .and_then(|()| self.total(image, holds))
      .and_then(|()| self.join(image))
      .and_then(|()| if holds { self.calls_on_desk(image) } else { self.calls_on_no_desk(image) });
    judged.map_err(|what| Found { kind, what, image: Box::new(self.before.clone()) })
  }

  fn verdict(&mut self, image: &mut Image, holds: bool) -> Result<(), String> {
    let expected = if holds { Answer::ACCEPTED } else { Answer::NO_DESK };
    let answer = self.core.well_formed(&image.lend());
    self.check("well_formed", answer, expected, image)
  }

  /// Every call gives 2, leaves every byte and writes no buffer.
  fn calls_on_no_desk(&mut self, image: &mut Image) -> Result<(), String> {
    let every = std::mem::take(&mut self.every);
    let calls = &every[self.random.below(2)];
    let unseen = Unseen::any(&mut self.random);
    let judged = calls.iter().try_for_each(|call| {
      let room = call.clone().room_mut().copied().flatten().unwrap_or(0);
      let mut out = Out::new(room as usize, &mut self.random);
      let answer = self.core.call(&mut image.lend(), call, &unseen, out.lend());
      let name = call.to_string();
      self.check(&name, answer, Answer::NO_DESK, image)?;
      out.check(&[]).map_err(|what| format!("{name}: {what}"))
    });
    self.every = every;
    judged
  }

  /// The memory still means a desk: a few calls get the oracle's answers on it.
  fn calls_on_desk(&mut self, image: &Image) -> Result<(), String> {
    let mut both = Both::of(image.clone());
    let calls = &self.every[self.random.below(2)];
    let any = calls.get(self.random.below(calls.len().max(1))).cloned();
    let calls = [Call::ToString { room: None }, Call::LastLine { room: None }];
    for call in any.into_iter().chain(calls).filter(|call| self.core.has(call)).collect::<Vec<_>>()
    {
      self.verdicts.calls += 1;
      let made = Made { call, seed: self.random.number() };
      both.step(self.core, &made).map_err(|what| format!("{}: {what}", made.call))?;
    }
    Ok(())
  }

  /// An opening looks at the lengths of the tables and at no word in them.
  fn open(&mut self, image: &Image) -> Result<(), String> {
    let mut image = image.clone();
    let call = Call::Open { source: image.source.clone() };
    let answer = self.core.call(&mut image.lend(), &call, &Unseen::PLAIN, &mut []);
    let Some(sizes) = image.sizes().filter(|&sizes| self.core.takes(sizes)) else {
      return self.check("open", answer, Answer::NO_DESK, &image);
    };
    let desk = match Desk::open(sizes.limits(), &image.source) {
      Err(number) => return self.check("open", answer, Answer { number, value: 0 }, &image),
      Ok(desk) => desk.data(),
    };
    self.verdicts.calls += 1;
    let opened = answer == Answer::ACCEPTED
      && image.source == self.before.source
      && holds_desk(&image.source, &image.chunks, &image.pieces, &image.store)
      && image::decode(&image.source, &image.chunks, &image.pieces, &image.store) == desk;
    if opened { Ok(()) } else { Err("open does not make a fresh desk".to_string()) }
  }

  /// A run of a sheet looks at their lengths alone too. The sheet has the image's source.
  fn run_sheet(&mut self, image: &Image) -> Result<(), String> {
    let sheet = Fields::of(&image.source, &self.records).bytes();
    let mut memory = Image { source: sheet, ..image.clone() };
    let ran = run_in(self.core, &mut memory, self.records.len(), &mut self.random);
    self.verdicts.calls += ran.map_err(|what| format!("run_sheet: {what}"))?.is_some() as u64;
    Ok(())
  }

  /// Where it is no desk, filing, withdrawing and freezing give 2 too and leave every byte,
  /// beside a record that is in order, with arguments that are and with others.
  fn file_and_withdraw(&mut self, image: &Image) -> Result<(), String> {
    let mut sides = Sides::of(image.clone(), self.filed_over(&image.source));
    let call = self.records.get(self.random.below(self.records.len() + 1));
    let call = call.map_or(Vec::new(), call_bytes);
    let k = self.random.below(3) as u32;
    let frozen = sides.freeze(self.core, k, 1).map_err(|what| format!("freeze {k} 1: {what}"))?;
    let filed = sides.file(self.core, &call, &mut self.random);
    let filed = filed.map_err(|what| format!("file: {what}"))?;
    let withdrawn = sides.withdraw(self.core, k).map_err(|what| format!("withdraw {k}: {what}"))?;
    let made = [frozen.is_some(), filed.is_some(), withdrawn.is_some()];
    self.verdicts.calls += made.map(u64::from).iter().sum::<u64>();
    Ok(())
  }

  /// A record with calls that keeps these tables is one exactly if they are a desk: its total
  /// tells.
  fn total(&mut self, image: &Image, holds: bool) -> Result<(), String> {
    let (memory, total) = &mut self.keeping;
    if image.sizes() != Some(Sizes::FULL) {
      return Ok(());
    }
    memory.lend().keep(image);
    let expected = if holds { Answer { number: 0, value: *total } } else { Answer::NO_DESK };
    match self.core.total(&image.source, &memory.lend()) {
      Some(answer) => self.check("total", answer, expected, image),
      None => Ok(()),
    }
  }

  /// A record of the calls. It keeps a fresh desk over this source, if it is one.
  fn filed_over(&mut self, source: &[u8]) -> Memory {
    let (over, memory) = &mut self.filed;
    if let Ok(source) = str::from_utf8(source)
      && source.len() <= MOST_SOURCE
      && source != over
    {
      *over = source.to_string();
      memory.lend().keep(&image::encode(&fresh(source), &mut self.random));
    }
    memory.clone()
  }

  /// So does a join, of lists that are in order and of others: some of them break a rule,
  /// a check, or none.
  fn join(&mut self, image: &Image) -> Result<(), String> {
    let at = self.random.below(self.records.len() + 1);
    let (first, second) = self.records.split_at(at);
    let lists = match self.random.below(16) {
      0 => self.joined[self.random.below(self.joined.len())].clone(),
      1..=3 => Lists::default(),
      4..=8 => Lists::of(&first[..at.min(1)], &[]),
      _ => Lists::of(first, second),
    };
    let mut both = Both::of_any(image.clone());
    let joined = join(self.core, &mut both, &lists, Order::FirstSecond, &mut self.random);
    self.verdicts.calls += joined.map_err(|what| format!("join: {what}"))?.is_some() as u64;
    Ok(())
  }

  /// The answer is the one expected, and no byte changed.
  fn check(
    &mut self,
    name: &str,
    answer: Answer,
    expected: Answer,
    image: &Image,
  ) -> Result<(), String> {
    self.verdicts.calls += 1;
    if answer != expected {
      return Err(format!("{name} gives {answer:?}, not {expected:?}"));
    }
    if *image != self.before {
      return Err(format!("{name} changed the lent memory"));
    }
    Ok(())
  }
}

impl fmt::Display for Verdicts {
  fn fmt(&self, out: &mut fmt::Formatter) -> fmt::Result {
    for (kind, [well, ill]) in &self.kinds {
      writeln!(out, "  {kind}: {well} well formed, {ill} not")?;
    }
    let [well, ill] = self.totals();
    writeln!(out, "images: {}, {well} well formed, {ill} not", well + ill)?;
    writeln!(out, "calls: {}", self.calls)
  }
}

/// The damage, the difference, and the words in use.
impl fmt::Display for Found {
  fn fmt(&self, out: &mut fmt::Formatter) -> fmt::Result {
    let image = &self.image;
    writeln!(out, "{}: {}", self.kind, self.what)?;
    writeln!(out, "source: {:02x?}", image.source)?;
    let lengths = [image.chunks.len(), image.pieces.len(), image.store.len()];
    writeln!(out, "lengths of chunks, pieces, store: {lengths:?}")?;
    let rows = image.chunks.first().map_or(0, |&count| count.min(8) as usize);
    for (number, row) in image.chunks.chunks(ROW).take(rows + 1).enumerate() {
      writeln!(out, "row {number}: {row:?}")?;
    }
    Ok(())
  }
}
