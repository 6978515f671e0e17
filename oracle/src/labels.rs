//! Sheets crowded with labelled lines, which the generator does not reach:
//! some hundreds to some thousands of them, many without a statement, and
//! jumps and RESTOREs to labels that are there, absent or omitted.

use crate::ast::Range;
use crate::compare;
use crate::generate;
use crate::rng::Rng;
use crate::run::Input;
use crate::sheet::{self, *};

const HIGHEST: usize = 65535;
/// A sheet's words and a text's units at most.
const MOST: usize = 65536;
/// So many are kept for the line that is crowded with jumps.
const ROOM: usize = 6000;

const CLS: u32 = 7;
const DATA: u32 = 10;
const GOSUB: u32 = 23;
const GOTO: u32 = 24;
const IF: u32 = 26;
const ON: u32 = 41;
const RESTORE: u32 = 52;

/// How the labels of a sheet's lines follow each other.
#[derive(Clone, Copy)]
pub enum Sort {
  /// Each so much above the one before.
  RisingBy(usize),
  FarApart,
  Falling,
  Shuffled,
  /// Every line has one of a few labels.
  Few,
  /// Rising, each label on several lines on end.
  Repeated,
  /// All congruent modulo one number.
  Congruent,
  Anywhere,
}

pub const SORTS: [Sort; 11] = [
  Sort::RisingBy(1),
  Sort::RisingBy(10),
  Sort::RisingBy(30),
  Sort::RisingBy(210),
  Sort::FarApart,
  Sort::Falling,
  Sort::Shuffled,
  Sort::Few,
  Sort::Repeated,
  Sort::Congruent,
  Sort::Anywhere,
];

/// Small and large numbers modulo which labels are congruent.
const MODULI: [usize; 24] = [
  2, 3, 7, 8, 10, 16, 30, 31, 64, 100, 127, 210, 256, 1000, 1021, 1024, 4096,
  8191, 10000, 16381, 16384, 32749, 32768, 65521,
];

/// The `index`th sheet of a seed; the sorts take turns.
pub fn labels(seed: u64, index: u64) -> Input {
  let mut rng = Rng::at(seed, index);
  let sort = SORTS[(index % SORTS.len() as u64) as usize];
  let most = *rng.pick(&[400, 1000, 3000, 16000]);
  let lines = rng.between(most / 2, most);
  let mut labels = of_sort(&mut rng, sort, lines);
  extreme(&mut rng, &mut labels);
  let mut maker = Maker::new(&mut rng);
  maker.lines(&labels);
  maker.finish()
}

// ---------------------------------------------------------------- labels

fn of_sort(rng: &mut Rng, sort: Sort, lines: usize) -> Vec<u16> {
  match sort {
    Sort::RisingBy(step) => rising(rng, lines, step),
    Sort::FarApart => far_apart(rng, lines),
    Sort::Falling => {
      let mut labels = any_rising(rng, lines);
      labels.reverse();
      labels
    }
    Sort::Shuffled => {
      let mut labels = any_rising(rng, lines);
      rng.shuffle(&mut labels);
      labels
    }
    Sort::Few => {
      let count = rng.between(1, 40);
      let few = any_rising(rng, count);
      (0..lines).map(|_| *rng.pick(&few)).collect()
    }
    Sort::Repeated => {
      let times = rng.between(2, 9);
      let labels = any_rising(rng, lines / times);
      labels.into_iter().flat_map(|label| vec![label; times]).collect()
    }
    Sort::Congruent => {
      let (label, modulus) = (rng.below(HIGHEST + 1), *rng.pick(&MODULI));
      (0..lines).map(|_| congruent(rng, label, modulus)).collect()
    }
    Sort::Anywhere => {
      (0..lines).map(|_| rng.below(HIGHEST + 1) as u16).collect()
    }
  }
}

fn any_rising(rng: &mut Rng, lines: usize) -> Vec<u16> {
  match *rng.pick(&[1, 1, 2, 10, 30, 210, 0]) {
    0 => far_apart(rng, lines),
    step => rising(rng, lines, step),
  }
}

/// At most so many labels, from 0 on, from the step on, up to the highest, or
/// anywhere between.
fn rising(rng: &mut Rng, lines: usize, step: usize) -> Vec<u16> {
  let count = lines.min(HIGHEST / step + 1);
  let last = HIGHEST - (count - 1) * step;
  let anywhere = rng.below(last + 1);
  let first = *rng.pick(&[0, step.min(last), last, anywhere]);
  (0..count).map(|i| (first + i * step) as u16).collect()
}

/// So many labels, rising, as far apart as 16 bits allow, with uneven gaps;
/// the last four are the highest that there are.
pub fn far_apart(rng: &mut Rng, lines: usize) -> Vec<u16> {
  let gap = MOST / lines;
  let label = |i| {
    let high = i + 4 >= lines;
    (if high { MOST - (lines - i) } else { i * gap + rng.below(gap) }) as u16
  };
  (0..lines).map(label).collect()
}

/// A label that is congruent to another.
fn congruent(rng: &mut Rng, label: usize, modulus: usize) -> u16 {
  let least = label % modulus;
  (least + modulus * rng.below((HIGHEST - least) / modulus + 1)) as u16
}

/// In half of the sheets 0 or 65535 at an end, at the fitting one or not.
fn extreme(rng: &mut Rng, labels: &mut [u16]) {
  if rng.chance(50) {
    let at = *rng.pick(&[0, labels.len() - 1]);
    labels[at] = *rng.pick(&[0, HIGHEST as u16]);
  }
}

// ---------------------------------------------------------------- sheets

struct Maker<'a> {
  rng: &'a mut Rng,
  words: Vec<u32>,
  units: Vec<u16>,
  /// The units of the line being written.
  length: usize,
  count: u32,
  /// The labels of the lines so far.
  labels: Vec<u16>,
  /// Where in the words the labels of jumps and RESTOREs stand.
  targets: Vec<usize>,
  /// The labels of an ON at most.
  items: usize,
  /// Percent of lines with statements, of lines without a label before a
  /// labelled one, and of statements that are DATA.
  full: usize,
  unlabelled: usize,
  data: usize,
}

impl<'a> Maker<'a> {
  fn new(rng: &'a mut Rng) -> Self {
    Self {
      full: *rng.pick(&[0, 1, 5, 30, 100]),
      unlabelled: *rng.pick(&[0, 0, 0, 10, 50]),
      data: *rng.pick(&[0, 20, 50]),
      rng,
      words: vec![word(PROGRAM, 0)],
      units: vec![],
      length: 0,
      count: 0,
      labels: vec![],
      targets: vec![],
      items: 6,
    }
  }

  /// A line for each label while there is room, and before or behind them one
  /// that is crowded with jumps.
  fn lines(&mut self, labels: &[u16]) {
    let first = self.rng.chance(50);
    if first {
      self.crowded_line(labels.len());
    }
    for &label in labels {
      if self.words.len().max(self.units.len()) + ROOM > MOST {
        break;
      }
      if self.rng.chance(self.unlabelled) {
        self.short_line(None);
      }
      self.short_line(Some(label));
    }
    if !first {
      self.crowded_line(labels.len());
    }
  }

  /// More statements where there are more labelled lines, so that little of
  /// work need be free.
  fn crowded_line(&mut self, lines: usize) {
    let most = (lines / 20).clamp(10, 60);
    let (length, stmts) =
      (self.rng.below(61), self.rng.between(most / 2, most));
    let items = std::mem::replace(&mut self.items, 40);
    self.line(None, length, stmts);
    self.items = items;
  }

  fn short_line(&mut self, label: Option<u16>) {
    let full = self.rng.chance(self.full);
    let stmts = if full { self.rng.between(1, 3) } else { 0 };
    let length = self.rng.below(5);
    self.line(label, length, stmts);
  }

  fn line(&mut self, label: Option<u16>, length: usize, stmts: usize) {
    self.count += 1;
    self.length = length;
    for _ in 0..length {
      self.units.push(b'0' as u16 + self.rng.below(10) as u16);
    }
    self.words.push(word(LINE, length as u32));
    match label {
      None => self.words.push(word(ABSENT, 0)),
      Some(label) => {
        self.range(0);
        self.words.push(word(LABEL, label.into()));
        self.labels.push(label);
      }
    }
    self.words.push(word(COUNT, stmts as u32));
    for _ in 0..stmts {
      self.stmt();
    }
  }

  fn stmt(&mut self) {
    let others = [GOTO, GOTO, GOSUB, ON, RESTORE, RESTORE, IF, CLS];
    let data = self.rng.chance(self.data);
    let case = if data { DATA } else { *self.rng.pick(&others) };
    self.words.push(word(STMT, case));
    self.range(0);
    match case {
      DATA => self.data(),
      GOTO => {
        self.yes_no();
        self.label_option();
      }
      GOSUB | RESTORE => self.label_option(),
      ON => self.on(),
      IF => {
        self.one();
        self.words.push(word(COUNT, 1));
        self.stmt();
        self.words.push(word(ABSENT, 0));
      }
      _ => {}
    }
  }

  fn data(&mut self) {
    let count = self.rng.between(1, 3);
    self.words.push(word(COUNT, count as u32));
    for _ in 0..count {
      let quoted = self.length > 0 && self.rng.chance(50);
      self.range(quoted as usize);
      self.words.push(word(YES_NO, quoted as u32));
    }
  }

  fn on(&mut self) {
    self.one();
    let count = self.rng.between(1, self.items);
    self.words.push(word(COUNT, count as u32));
    for _ in 0..count {
      self.range(0);
      if self.rng.chance(10) {
        self.words.push(word(ABSENT, 0));
      } else {
        self.target();
      }
    }
    self.yes_no();
  }

  fn label_option(&mut self) {
    if self.rng.chance(10) {
      self.words.push(word(ABSENT, 0));
    } else {
      self.range(0);
      self.target();
    }
  }

  /// A label that `finish` chooses.
  fn target(&mut self) {
    self.targets.push(self.words.len());
    self.words.push(word(LABEL, 0));
  }

  fn yes_no(&mut self) {
    let yes = self.rng.below(2) as u32;
    self.words.push(word(YES_NO, yes));
  }

  /// The number 1.
  fn one(&mut self) {
    self.words.push(word(EXPR, 2));
    self.range(0);
    self.words.extend([
      word(EXPONENT, 129),
      word(MANTISSA, 0x8000),
      word(MANTISSA, 0),
    ]);
  }

  /// Any range of the line with at least so many units.
  fn range(&mut self, least: usize) {
    let start = self.rng.between(0, self.length - least);
    let end = self.rng.between(start + least, self.length);
    self.words.push(sheet::range_word(&Range::new(start, end)));
  }

  /// Chooses the targets, and lends buffers that suffice or some that are a
  /// little too short.
  fn finish(mut self) -> Input {
    self.words[0] = word(PROGRAM, self.count);
    let work = lent_work(self.rng, self.words.len());
    let by_work = self.moduli(work);
    for at in std::mem::take(&mut self.targets) {
      self.words[at] = word(LABEL, self.chosen(&by_work).into());
    }
    let Self { rng, words, units, .. } = self;
    let mut input = Input { words, units, ..Input::default() };
    if rng.chance(60) {
      input = compare::ample(&input);
    } else {
      generate::lend(rng, &mut input);
    }
    if input.work >= input.words.len() {
      input.work = work;
    }
    input
  }

  /// A label that a line has, one beside it, one congruent to it, or any.
  fn chosen(&mut self, by_work: &[usize]) -> u16 {
    let known = *self.rng.pick(&self.labels);
    let fixed = self.rng.chance(50);
    let modulus = *self.rng.pick(if fixed { &MODULI } else { by_work });
    match self.rng.below(9) {
      0..3 => known,
      3 => *self.rng.pick(&[known.saturating_sub(1), known.saturating_add(1)]),
      4 => *self.rng.pick(&[0, HIGHEST as u16]),
      5 => self.rng.below(HIGHEST + 1) as u16,
      _ => congruent(self.rng, known.into(), modulus),
    }
  }

  /// Numbers by the length of work: a labelled line takes three words of it,
  /// the others are free.
  fn moduli(&self, work: usize) -> Vec<usize> {
    let words = self.words.len();
    let free = work - 3 * self.labels.len();
    let power = free.next_power_of_two() / 2;
    [words, work, free, free - 1, free / 2, power]
      .into_iter()
      .filter(|modulus| (2..=HIGHEST).contains(modulus))
      .collect()
  }
}

/// As long as the sheet, or longer.
fn lent_work(rng: &mut Rng, words: usize) -> usize {
  match rng.below(7) {
    0..2 => words,
    2 => words + rng.between(1, 9),
    3 => words + rng.below(words),
    4 => words + rng.below(4 * words),
    5 => words + MOST + rng.below(10),
    _ => words.next_power_of_two(),
  }
}
