//! Trees printed as BASIC text and read again: each generated sheet is decoded,
//! printed in the canonical way and with choices, and read. The tree that is
//! read has to be the printer's, ranges included.

use crate::compare::Plan;
use crate::generate;
use crate::parts::{self, said};
use crate::replay;
use crate::rng::Rng;
use crate::sheet::{self, STMT};
use crate::tally::{self, Tally};
use hollupsa::basic::{self, Form, LONGEST_LINE, Severity};
use hollupsa::print;
use hollupsa::tree::Program;
use std::fmt::Debug;
use std::io::{self, Write};

/// Prints and reads the trees of a plan, and says what was counted.
pub fn texts(out: &mut impl Write, plan: &Plan) -> io::Result<bool> {
  let tally = run(plan);
  let Tally { trees, as_they_were, missing, .. } = tally;
  let Tally { texts, too_long, failed, .. } = tally;
  write!(out, "{}", tally.kinds)?;
  tally.write_failures(out)?;
  writeln!(
    out,
    "texts: seed {}, {trees} trees, {as_they_were} as they were, {missing} with something missing, {texts} texts read, {too_long} with a line too long, {failed} trees failed",
    plan.seed
  )?;
  out.flush()?;
  Ok(failed == 0)
}

fn run(plan: &Plan) -> Tally {
  let Plan { seed, small, .. } = *plan;
  tally::run(plan, "texts", "tree", |tally, index| {
    one(tally, seed, index, small)
  })
}

/// Every kind is reached.
pub fn some() -> Result<String, String> {
  let Tally { trees, texts, .. } = tally::fixed(0x7e87, 6000, run, &[])?;
  Ok(format!(", {trees} trees, {texts} texts"))
}

fn one(
  tally: &mut Tally,
  seed: u64,
  index: u64,
  small: bool,
) -> Result<(), String> {
  let mut rng = Rng::at(seed, index);
  let mut input = generate::sheet_and_text(&mut rng, small);
  some_fseeks(&mut rng, &mut input.words);
  let show = |error| format!("{error}\n{}", replay::readable(&input));
  let tree = Program::decode(&input.words)
    .ok_or("no tree")
    .map_err(|e| show(e.into()))?;
  if tree.encode() != input.words {
    return Err(show("another sheet is encoded than was decoded".into()));
  }
  tally.trees += 1;
  let (normal, units) = print::normal(&tree, &input.units);
  let wanted = said(&normal, &units);
  let (again, units) = print::normal(&normal, &units);
  same(&said(&again, &units), &wanted, "made sayable twice").map_err(show)?;
  tally.as_they_were += (said(&tree, &input.units) == wanted) as u64;
  let missing = parts::is_missing_something(&normal);
  tally.missing += missing as u64;

  let bold = *rng.pick(&[0, 5, 30, 100]);
  for percent in [0, bold] {
    let (text, printed) = print::print_with(&tree, &input.units, &mut |n| {
      if rng.chance(percent) { rng.below(n) } else { 0 }
    });
    let show = |error| show(format!("{error}\n{text}"));
    let units: Vec<u16> = text.encode_utf16().collect();
    same(&said(&printed, &units), &wanted, "printed").map_err(show)?;
    if is_too_long(&printed) {
      tally.too_long += 1;
      continue;
    }
    let form = basic::read(&text);
    same(&form.program, &printed, "read").map_err(show)?;
    if form.units != units {
      return Err(show("other units".into()));
    }
    let error = first_error(&form);
    if error.is_some() != missing {
      let error = error.unwrap_or("no error, but a part is missing".into());
      return Err(show(error));
    }
    tally.texts += 1;
    tally.kinds.count(&form.program);
  }
  Ok(())
}

/// The generator makes no FSEEK, which the compiler refuses; FPUTC has the same
/// parts.
pub fn some_fseeks(rng: &mut Rng, words: &mut [u32]) {
  let (fputc, fseek) = (sheet::word(STMT, 66), sheet::word(STMT, 69));
  for word in words.iter_mut().filter(|word| **word == fputc) {
    if rng.chance(50) {
      *word = fseek;
    }
  }
}

pub fn is_too_long(program: &Program) -> bool {
  program.lines.iter().any(|line| line.len > LONGEST_LINE)
}

/// The first error among a form's problems.
pub fn first_error(form: &Form) -> Option<String> {
  let error = |p: &&basic::Problem| p.severity == Severity::Error;
  let problem = form.problems.iter().find(error)?;
  Some(format!("{problem:?}"))
}

/// Where two things first differ, as they are shown.
pub fn same<T: PartialEq + Debug>(
  found: &T,
  wanted: &T,
  what: &str,
) -> Result<(), String> {
  if found == wanted {
    return Ok(());
  }
  let (found, wanted) = (format!("{found:?}"), format!("{wanted:?}"));
  let (a, b) = (found.chars(), wanted.chars());
  let at = a.zip(b).take_while(|(a, b)| a == b).count();
  let near = |text: &str| -> String {
    text.chars().skip(at.saturating_sub(80)).take(240).collect()
  };
  Err(format!("{what}: {}\nwanted: {}", near(&found), near(&wanted)))
}
