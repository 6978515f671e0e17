//! Changed texts: whatever stands in them, reading ends without a panic and
//! within a small stack, with a tree that is a good sheet; and a text without
//! an error is printed and read again as the same tree.

use crate::compare::Plan;
use crate::form;
use crate::generate;
use crate::parts::said;
use crate::rng::Rng;
use crate::selftest::guarded;
use crate::tally::{self, Tally};
use crate::texts::{first_error, is_too_long, same, some_fseeks};
use hollupsa::basic::{self, Form};
use hollupsa::print;
use hollupsa::spelling::{FUNCTIONS, OPERATORS, STATEMENTS};
use hollupsa::tree::Program;
use std::io::{self, Write};

const EXAMPLES: [&str; 4] = [
  include_str!("../../examples/delay.bas"),
  include_str!("../../examples/diameters.bas"),
  include_str!("../../examples/tally.bas"),
  include_str!("../../examples/volume.bas"),
];

/// Words that stand between values, and what else begins or ends something.
const OTHERS: [&str; 24] = [
  "AND", "OR", "THEN", "TO", "STEP", "ELSE", "GOTO", "GOSUB", "AS", "FN",
  "NOT", "INKEY$", "LEN", "?", "#", ":", "::", "\"", "(", ")", ",", ";", "1E5",
  "9999",
];

/// What is put in long rows.
const ROWS: [&str; 12] = [
  "(",
  "-",
  "1+",
  "A(",
  "IF A THEN ",
  "NOT ",
  "FN F(",
  ":",
  "ABS(",
  "\"",
  "A ",
  "1^(",
];

pub fn mutants(out: &mut impl Write, plan: &Plan) -> io::Result<bool> {
  let tally = run(plan);
  let Tally { texts, accepted, too_long, beyond, failed, .. } = tally;
  writeln!(out, "in texts without an error:\n{}", tally.kinds)?;
  tally.write_failures(out)?;
  writeln!(
    out,
    "mutants: seed {}, {texts} texts, {accepted} without an error ({too_long} of them printed with a line too long), {} with, {beyond} trees beyond what a sheet takes, {failed} failed",
    plan.seed,
    texts - accepted
  )?;
  out.flush()?;
  Ok(failed == 0)
}

/// Each text is read on a thread with the stack of a test's; if it does not
/// suffice the whole run ends.
fn run(plan: &Plan) -> Tally {
  let seed = plan.seed;
  tally::run(plan, "mutants", "text", |tally, index| one(tally, seed, index))
}

/// Every kind is read without an error, but what is missing, an expression or
/// a mode: that is told as one.
pub fn some() -> Result<String, String> {
  let missing = ["missing", "missing"];
  let tally = tally::fixed(0x3074, 8000, run, &missing)?;
  let Tally { texts, accepted, .. } = tally;
  Ok(format!(", {texts} texts, {accepted} without an error"))
}

fn one(tally: &mut Tally, seed: u64, index: u64) -> Result<(), String> {
  let text = mutant(&mut Rng::at(seed, index));
  tally.texts += 1;
  guarded(|| read_and_print(tally, &text)).map_err(|error| {
    let shown: String = text.chars().take(2000).collect();
    format!("{error}\n{shown}\n{shown:?}")
  })
}

fn read_and_print(tally: &mut Tally, text: &str) -> Result<(), String> {
  let form = basic::read(text);
  is_a_sheet(tally, &form)?;
  if first_error(&form).is_some() {
    return Ok(());
  }
  tally.accepted += 1;
  tally.kinds.count(&form.program);
  let wanted = said(&form.program, &form.units);
  let (printed_text, printed) = print::print(&form.program, &form.units);
  let units: Vec<u16> = printed_text.encode_utf16().collect();
  let show = |error| format!("{error}\nprinted: {printed_text}");
  same(&said(&printed, &units), &wanted, "printed").map_err(show)?;
  if is_too_long(&printed) {
    tally.too_long += 1;
    return Ok(());
  }
  let again = basic::read(&printed_text);
  same(&again.program, &printed, "read again").map_err(show)?;
  match first_error(&again) {
    Some(error) => Err(show(format!("read again with {error}"))),
    None => Ok(()),
  }
}

/// Whatever was read, its tree is a sheet of its units, but for one that is too
/// large or too deep, or has an FSEEK.
fn is_a_sheet(tally: &mut Tally, form: &Form) -> Result<(), String> {
  let words = form.program.encode();
  if Program::decode(&words).as_ref() != Some(&form.program) {
    return Err("the tree is not what its sheet is decoded to".into());
  }
  match form::refusal(&words, &form.units, words.len()) {
    None => {}
    Some(refusal) if [1, 5, 8].contains(&refusal.number) => tally.beyond += 1,
    Some(refusal) => return Err(format!("the sheet has {refusal:?}")),
  }
  Ok(())
}

// ------------------------------------------------------------------ mutants

/// A text that is changed at one or a few places.
fn mutant(rng: &mut Rng) -> String {
  let mut text: Vec<char> = seed_text(rng).chars().collect();
  for _ in 0..*rng.pick(&[0, 1, 1, 1, 2, 3, 8]) {
    change(rng, &mut text);
  }
  text.into_iter().collect()
}

/// An example, or a generated form printed in some way.
fn seed_text(rng: &mut Rng) -> String {
  if rng.chance(10) {
    return rng.pick(&EXAMPLES).to_string();
  }
  let small = rng.chance(70);
  let mut input = generate::sheet_and_text(rng, small);
  some_fseeks(rng, &mut input.words);
  let tree = Program::decode(&input.words).expect("a tree");
  let percent = *rng.pick(&[0, 10, 100]);
  let mut choose = |n| if rng.chance(percent) { rng.below(n) } else { 0 };
  print::print_with(&tree, &input.units, &mut choose).0
}

fn change(rng: &mut Rng, text: &mut Vec<char>) {
  let at = rng.below(text.len() + 1);
  let other = rng.below(text.len() + 1);
  let (low, high) = (at.min(other), at.max(other));
  let near = (low + rng.below(8)).min(text.len());
  match rng.below(24) {
    0 | 1 => drop(text.drain(low..near)),
    2 => {
      let piece = text[low..near].to_vec();
      put(text, high, piece);
    }
    3 if near > low + 1 => text.swap(low, near - 1),
    4..7 => {
      let letter = letter(rng);
      put(text, at, [letter]);
    }
    7..11 => {
      let word = word(rng);
      put(text, at, word.chars());
    }
    11 => {
      let word = format!(" {} ", word(rng));
      put(text, at, word.chars());
    }
    12 if at < text.len() => text[at] = letter(rng),
    13 => text.truncate(at),
    // Words without blanks between.
    14 | 15 => {
      let blank = |c: &char| matches!(c, ' ' | '\t');
      let mut at = 0;
      text.retain(|c| {
        at += 1;
        !((low..high).contains(&(at - 1)) && blank(c))
      });
    }
    // Lines put together.
    16 => {
      if let Some(end) = text.iter().position(|c| *c == '\n') {
        text.remove(end);
      }
    }
    // The begin of one line and the end of another.
    17 => drop(text.drain(low..high.min(low + 60))),
    18 => {
      let piece = text[low..high.min(low + 200)].to_vec();
      let to = rng.below(text.len() + 1);
      put(text, to, piece);
    }
    19 => {
      for c in &mut text[low..high] {
        *c = c.to_ascii_lowercase();
      }
    }
    20 => {
      let row = row(rng);
      put(text, at, row.chars());
    }
    21 => {
      let digits = *rng.pick(&["0", "7", "00", ".", "1E", "E9", "%", "$"]);
      put(text, at, digits.chars());
    }
    22 => {
      let end = *rng.pick(&["\n", "\r\n", "\r", "\n\n", "\u{feff}", "\n10 "]);
      put(text, at, end.chars());
    }
    _ => {
      let line = *rng.pick(&EXAMPLES);
      let line = line.lines().nth(rng.below(6)).unwrap_or("");
      put(text, at, line.chars());
    }
  }
}

fn put(text: &mut Vec<char>, at: usize, piece: impl IntoIterator<Item = char>) {
  text.splice(at..at, piece);
}

fn word(rng: &mut Rng) -> &'static str {
  match rng.below(4) {
    0 => *rng.pick(&STATEMENTS),
    1 => rng.pick(&FUNCTIONS).0,
    2 => rng.pick(&OPERATORS).0,
    _ => *rng.pick(&OTHERS),
  }
}

fn letter(rng: &mut Rng) -> char {
  const SIGNS: &str = " \t\"%$()+-*/^<>=,;:#?.!&'_~[]{}|\\@`";
  const ODD: [char; 16] = [
    '\0',
    '\u{1}',
    '\u{7f}',
    '\r',
    '\n',
    '\u{80}',
    '\u{a0}',
    'é',
    'ß',
    '松',
    '\u{3000}',
    '\u{feff}',
    '\u{ffff}',
    '\u{ff21}',
    '\u{1f332}',
    'ſ',
  ];
  match rng.below(5) {
    0 => (b'A' + rng.below(26) as u8) as char,
    1 => (b'0' + rng.below(10) as u8) as char,
    2 => *rng.pick(&ODD),
    _ => {
      let signs: Vec<char> = SIGNS.chars().collect();
      *rng.pick(&signs)
    }
  }
}

/// A piece again and again: seldom tens of thousands of times.
fn row(rng: &mut Rng) -> String {
  let piece = *rng.pick(&ROWS);
  let most = *rng.pick(&[3, 70, 110, 400, 4095, 4095, 30_000]);
  let mut row = piece.repeat(rng.between(1, most));
  if rng.chance(30) {
    row.push('1');
    row += &")".repeat(rng.below(120));
  }
  row
}
