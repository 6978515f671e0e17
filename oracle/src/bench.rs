//! Times of the Rust (CodeGen as its emitter, the tree already made), of the
//! library and of the floor on the same inputs, call by call in turn.

use crate::ast::Range;
use crate::compare;
use crate::compiler;
use crate::form;
use crate::labels;
use crate::library::{self, Lent};
use crate::machine::EmojiVersion;
use crate::replay;
use crate::rng::Rng;
use crate::run::Input;
use crate::sheet::{self, *};
use crate::standins::{self, Utf16Str};
use crate::vm::CodeGen;
use std::hint::black_box;
use std::io::{self, Write};
use std::time::{Duration, Instant};

const SIZES: [usize; 5] = [1000, 4000, 16000, 32000, 65536];

/// A family's name, and its sheet of at most so many words.
type Family = (&'static str, fn(usize) -> Input);

const FAMILIES: [Family; 8] = [
  ("realistic forms", realistic),
  ("many names", many_names),
  ("many jumps", many_jumps),
  ("labels far apart", labels_far_apart),
  ("labels not rising", labels_not_rising),
  ("long texts", long_texts),
  ("deep nesting", deep_nesting),
  ("many notes", many_notes),
];

/// The forms of the folder examples.
const FORMS: [&[u8]; 4] = [
  include_bytes!("../../examples/tally.bin"),
  include_bytes!("../../examples/volume.bin"),
  include_bytes!("../../examples/diameters.bin"),
  include_bytes!("../../examples/delay.bin"),
];

/// Rounds go on for so long, or until there are so many, but nine at least.
const LONG: Duration = Duration::from_millis(1500);
const MANY: usize = 5001;

/// Times the families that have one of the words in their names; without a
/// word all of them.
pub fn bench(out: &mut impl Write, words: &[&str]) -> io::Result<bool> {
  library::needed()?;
  let families = chosen(words)?;
  settle_heap();
  writeln!(
    out,
    "| family | words | units | Rust, µs | library, µs | Rust / library | library, ns a word | floor, ns a word |\n|---|---|---|---|---|---|---|---|"
  )?;
  for (name, make) in families {
    let mut largest = 0;
    for size in SIZES {
      let input = compare::ample(&make(size));
      // The text sets a bound, too.
      if input.words.len() > largest {
        largest = input.words.len();
        row(out, name, &input)?;
      }
    }
  }
  Ok(true)
}

/// Frees a large block: from then on glibc's malloc keeps what is freed, so
/// that the Rust need not fetch pages anew in each round, whatever ran before.
fn settle_heap() {
  drop(black_box(Vec::<u8>::with_capacity(31 << 20)));
}

fn chosen(words: &[&str]) -> io::Result<Vec<Family>> {
  let has = |name: &str, word: &str| name.split(' ').any(|part| part == word);
  for word in words {
    if !FAMILIES.iter().any(|(name, _)| has(name, word)) {
      let names = FAMILIES.map(|(name, _)| name).join(", ");
      let said = format!("no family has the word {word}: {names}");
      return Err(io::Error::other(said));
    }
  }
  let wanted = |(name, _): &Family| {
    words.is_empty() || words.iter().any(|word| has(name, word))
  };
  Ok(FAMILIES.into_iter().filter(wanted).collect())
}

fn row(out: &mut impl Write, name: &str, input: &Input) -> io::Result<()> {
  let (words, units) = (input.words.len(), input.units.len());
  let refusal = form::refusal(&input.words, &input.units, words);
  assert_eq!(refusal, None, "{name}, {words}");
  let [rust, library, floor] = medians(name, input)?;
  let a_word = |time: Duration| time.as_secs_f64() * 1e9 / words as f64;
  let micros = |time: Duration| time.as_secs_f64() * 1e6;
  writeln!(
    out,
    "| {name} | {words} | {units} | {:.0} | {:.0} | {:.2} | {:.1} | {:.1} |",
    micros(rust),
    micros(library),
    rust.as_secs_f64() / library.as_secs_f64(),
    a_word(library),
    a_word(floor)
  )?;
  out.flush()
}

/// The medians of the Rust, the library and the floor, which take turns, so
/// that a slow moment of the machine hits all of them.
fn medians(name: &str, input: &Input) -> io::Result<[Duration; 3]> {
  let (mut made, mut bare) = (Lent::default(), Lent::default());
  time_library(input, &mut made);
  if made.answer[0] != 0 {
    let said = format!("{name}: the library refuses: {:?}", made.answer);
    return Err(io::Error::other(said));
  }
  let begun = Instant::now();
  let mut rounds = vec![];
  while rounds.len() < 9 || (rounds.len() < MANY && begun.elapsed() < LONG) {
    rounds.push([
      time_rust(input),
      time_library(input, &mut made),
      time_floor(input, &made, &mut bare),
    ]);
  }
  Ok([0, 1, 2].map(|side| {
    let mut times: Vec<Duration> =
      rounds.iter().map(|round| round[side]).collect();
    times.sort();
    times[times.len() / 2]
  }))
}

fn time_rust(input: &Input) -> Duration {
  let mut prog = sheet::decode(&input.words).expect("the form took the sheet");
  let text = Utf16Str::from_units(&input.units);
  standins::begin(text);
  let begun = Instant::now();
  let mut code_gen = CodeGen::new(EmojiVersion);
  compiler::compile_prog(text, &mut prog, &mut code_gen);
  begun.elapsed()
}

fn time_library(input: &Input, lent: &mut Lent) -> Duration {
  lent.lend(input);
  let begun = Instant::now();
  library::compile(&input.words, &input.units, lent);
  begun.elapsed()
}

/// What no compiler with these buffers can avoid: they are cleared, and what
/// comes out is written, here copied from where the library has made it.
fn time_floor(input: &Input, made: &Lent, bare: &mut Lent) -> Duration {
  bare.lend(input);
  let [_, _, records, notes, entries] = made.answer.map(|n| n as usize);
  let begun = Instant::now();
  let Lent { list, notes: noted, book, work, .. } = &mut *bare;
  for buffer in [&mut *list, &mut *noted, &mut *book, work] {
    black_box(buffer).fill(0);
  }
  for (to, from, length) in [
    (list, &made.list, 5 * records),
    (noted, &made.notes, 4 * notes),
    (book, &made.book, 4 * entries),
  ] {
    black_box(to)[..length].copy_from_slice(&from[..length]);
  }
  black_box(bare);
  begun.elapsed()
}

// -------------------------------------------------------------- families

/// A sheet of lines that is made line by line within so many words and within
/// the text's 65,536 units.
struct Lines {
  size: usize,
  count: u32,
  input: Input,
}

impl Lines {
  fn new(size: usize) -> Self {
    let input = Input { words: vec![word(PROGRAM, 0)], ..Input::default() };
    Self { size, count: 0, input }
  }

  /// Adds a line; false if there is no room for it.
  fn add(&mut self, words: &[u32], units: &[u16]) -> bool {
    let Input { words: all, units: text, .. } = &mut self.input;
    let fits = all.len() + words.len() <= self.size;
    if !fits || text.len() + units.len() > 65536 {
      return false;
    }
    all.extend(words);
    text.extend(units);
    self.count += 1;
    true
  }

  fn finish(mut self) -> Input {
    self.input.words[0] = word(PROGRAM, self.count);
    self.input
  }
}

fn range(start: usize, end: usize) -> u32 {
  range_word(&Range::new(start, end))
}

/// The examples over and over, their labels rising.
fn realistic(size: usize) -> Input {
  let forms = FORMS.map(|bytes| replay::program_input(bytes).unwrap());
  let mut lines = Lines::new(size);
  for (turn, form) in (0..).zip(forms.iter().cycle()) {
    let shift = turn * 210;
    let heads = crate::generate::places_of(&form.words, LINE);
    let ends = heads[1..].iter().copied().chain([form.words.len()]);
    let mut text = &form.units[..];
    for (&head, end) in heads.iter().zip(ends) {
      let (units, rest) = text.split_at(payload(form.words[head]) as usize);
      text = rest;
      let shifted: Vec<u32> = form.words[head..end]
        .iter()
        .map(|&w| if kind(w) == LABEL { w + shift } else { w })
        .collect();
      let high =
        shifted.iter().any(|&w| kind(w) == LABEL && payload(w) > 65535);
      if high || !lines.add(&shifted, units) {
        return lines.finish();
      }
    }
  }
  unreachable!()
}

/// Assignments, each to a name of its own.
fn many_names(size: usize) -> Input {
  let mut lines = Lines::new(size);
  for i in 0.. {
    let letter = |n: usize| (b'A' + (n % 26) as u8) as char;
    let name: String =
      [i, i / 26, i / 676, i / 17576].map(letter).into_iter().collect();
    let units: Vec<u16> = format!("{name}=1").encode_utf16().collect();
    let words = [
      word(LINE, 6),
      word(ABSENT, 0),
      word(COUNT, 1),
      word(STMT, 31),
      range(0, 6),
      word(EXPR, 0),
      range(0, 4),
      word(EXPR, 2),
      range(5, 6),
      word(EXPONENT, 129),
      word(MANTISSA, 0x8000),
      word(MANTISSA, 0),
    ];
    if !lines.add(&words, &units) {
      break;
    }
  }
  lines.finish()
}

/// Labelled lines, each with a GOTO to another.
fn many_jumps(size: usize) -> Input {
  let labels: Vec<u16> = (0..jump_lines(size)).map(|i| i as u16).collect();
  jumps(size, &labels)
}

fn labels_far_apart(size: usize) -> Input {
  let labels = labels::far_apart(&mut Rng::new(1), jump_lines(size));
  jumps(size, &labels)
}

/// The labels of `many_jumps`, shuffled.
fn labels_not_rising(size: usize) -> Input {
  let mut labels: Vec<u16> = (0..jump_lines(size)).map(|i| i as u16).collect();
  Rng::new(2).shuffle(&mut labels);
  jumps(size, &labels)
}

/// The lines of nine words that a sheet has room for.
fn jump_lines(size: usize) -> usize {
  (size - 1) / 9
}

/// A line for each label, with a GOTO to another line.
fn jumps(size: usize, labels: &[u16]) -> Input {
  let mut lines = Lines::new(size);
  for (i, &label) in labels.iter().enumerate() {
    let target = labels[i * 7919 % labels.len()];
    let words = [
      word(LINE, 0),
      range(0, 0),
      word(LABEL, label.into()),
      word(COUNT, 1),
      word(STMT, 24),
      range(0, 0),
      word(YES_NO, 1),
      range(0, 0),
      word(LABEL, target.into()),
    ];
    lines.add(&words, &[]);
  }
  lines.finish()
}

/// In turn a PRINT of a string, and DATA of a quoted and an unquoted datum,
/// each of up to 250 units.
fn long_texts(size: usize) -> Input {
  let mut rng = Rng::new(3);
  let mut lines = Lines::new(size);
  loop {
    let string = quoted(&long_text(&mut rng));
    let whole = range(0, string.len());
    let print = [
      word(LINE, string.len() as u32),
      word(ABSENT, 0),
      word(COUNT, 1),
      word(STMT, 47),
      whole,
      word(COUNT, 1),
      word(PRINT_ELEMENT, 0),
      word(EXPR, 1),
      whole,
    ];
    let first = quoted(&long_text(&mut rng));
    let both = [&first[..], &[b',' as u16], &long_text(&mut rng)].concat();
    let data = [
      word(LINE, both.len() as u32),
      word(ABSENT, 0),
      word(COUNT, 1),
      word(STMT, 10),
      range(0, both.len()),
      word(COUNT, 2),
      range(0, first.len()),
      word(YES_NO, 1),
      range(first.len() + 1, both.len()),
      word(YES_NO, 0),
    ];
    if !lines.add(&print, &string) || !lines.add(&data, &both) {
      return lines.finish();
    }
  }
}

/// Letters of both kinds and blanks.
fn long_text(rng: &mut Rng) -> Vec<u16> {
  let length = rng.between(50, 250);
  let unit = |_| match rng.below(8) {
    0 => b' ' as u16,
    1 | 2 => 0x4e00 + rng.below(0x5000) as u16,
    _ => b'A' as u16 + rng.below(26) as u16,
  };
  (0..length).map(unit).collect()
}

fn quoted(text: &[u16]) -> Vec<u16> {
  let quote = [b'"' as u16];
  [&quote[..], text, &quote].concat()
}

/// In turn a PRINT of a number under 62 signs, and 62 IFs in each other.
fn deep_nesting(size: usize) -> Input {
  let ident = [word(EXPR, 0), range(0, 1)];
  let mut print = vec![
    word(LINE, 1),
    word(ABSENT, 0),
    word(COUNT, 1),
    word(STMT, 47),
    range(0, 1),
    word(COUNT, 1),
    word(PRINT_ELEMENT, 0),
  ];
  for _ in 0..62 {
    print.extend([word(EXPR, 6), range(0, 1), range(0, 1), word(PLACE, 1)]);
  }
  print.extend(ident);
  let mut ifs = vec![word(LINE, 1), word(ABSENT, 0), word(COUNT, 1)];
  for _ in 0..62 {
    ifs.extend([word(STMT, 26), range(0, 1)]);
    ifs.extend(ident);
    ifs.push(word(COUNT, 1));
  }
  ifs.extend([word(STMT, 17), range(0, 1)]);
  ifs.extend([word(ABSENT, 0); 62]);
  let mut lines = Lines::new(size);
  let unit = [b'A' as u16];
  while lines.add(&print, &unit) && lines.add(&ifs, &unit) {}
  lines.finish()
}

/// One NEXT of a cut text name, over and over: two notes a word.
fn many_notes(size: usize) -> Input {
  let count = size - 7;
  let mut words = vec![
    word(PROGRAM, 1),
    word(LINE, 4),
    word(ABSENT, 0),
    word(COUNT, 1),
    word(STMT, 38),
    range(0, 4),
    word(COUNT, count as u32),
  ];
  words.resize(size, range(0, 4));
  Input { words, units: "A B$".encode_utf16().collect(), ..Input::default() }
}
