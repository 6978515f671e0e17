//! The oracle: says what the unchanged Rust does, in document 01's terms.
//! README.md lists the commands.

// The Rust sources import from these crates; the crate itself is lent under
// their names, and the stand-ins are re-exported at its root.
extern crate self as num_derive;
extern crate self as phf;
extern crate self as smallvec;
extern crate self as string_interner;
extern crate self as widestring;

pub use standins::{
  DefaultStringInterner, Map, SmallVec, Utf16Str, Utf16String,
};
pub use std::collections::HashMap;
/// num_derive's FromPrimitive is asked by no source here; another derive that
/// SysFuncKind has not yet stands under its name.
pub use std::hash::Hash as FromPrimitive;

mod bench;
mod cases;
mod check;
mod compare;
mod computed;
mod crowded;
mod damage;
mod form;
mod generate;
mod jobs;
mod labels;
mod library;
mod maker;
mod mutants;
mod pairs;
mod parts;
mod points;
mod progress;
mod recorder;
mod replay;
mod rng;
mod run;
mod rust_text;
mod selftest;
mod sheet;
mod standins;
mod tally;
mod texts;
mod vm;

pub mod ast {
  include!(concat!(env!("OUT_DIR"), "/ast.rs"));
  pub use crate::standins::{
    ExprId, NonEmptyVec, Program, ProgramLine, Range, StmtId,
  };
  pub use expr::*;
  pub use label::*;
  pub use stmt::*;
}

pub mod parser {
  pub use crate::standins::ParseResult;
}

pub mod diagnostic {
  pub use crate::standins::Diagnostic;
}

pub mod machine {
  /// The letter table of a device; none is kept here.
  #[derive(Clone, Copy, PartialEq, Eq, Debug)]
  pub struct EmojiVersion;
}

pub mod util {
  pub mod mbf5 {
    pub use crate::standins::{Mbf5, ParseRealError};
  }
  pub mod utf16str_ext {
    pub use crate::standins::Utf16StrExt;
  }
}

include!(concat!(env!("OUT_DIR"), "/root.rs"));

use compare::Plan as Options;
use generate::Sort;
use progress::Progress;
use replay::Inputs;
use run::Input;
use std::io::{self, BufReader, BufWriter, Read, Write};
use std::process::ExitCode;

const USAGE: &str = "\
oracle listing < INPUT           document 01's listing of one program input
oracle generate --seed S --count N [--valid|--damaged|--mixed] [--small]
oracle crowded --seed S          two sheets with more names than a tree holds
oracle labels --seed S --count N sheets crowded with labelled lines
oracle cases --seed S --count N  inputs with their answers, for crates/cases
oracle pairs                     document 01's 'Pairs to run'
oracle replay-list               the fixed list of inputs
oracle answers < FILE            each answer whole
oracle form < FILE               refusal and place by 1 to 8 alone
oracle text < FILE               each input for people to read
oracle check < FILE              compare with the unchanged CodeGen
oracle stress, as generate       generate, answer, check, count
oracle compare --seed S --count N [--valid|--damaged|--mixed] [--small]
    [--jobs J] [--out FILE]      the proved library against the Rust
oracle lengths, as compare       the same at every length of each buffer
oracle recheck < FILE            the same on given inputs
oracle texts --seed S --count N [--small] [--jobs J]
                                 trees printed as BASIC text and read again
oracle mutants --seed S --count N [--jobs J]
                                 changed texts read, printed and read again
oracle bench [FAMILY..]          times of the Rust and of the library
oracle selftest                  the tests
generate, crowded, labels, pairs and replay-list write the replay format,
which answers, form, text, check and recheck read.";

fn main() -> ExitCode {
  let args: Vec<String> = std::env::args().skip(1).collect();
  let mut args = args.iter().map(String::as_str);
  let command = args.next().unwrap_or("");
  let options: Vec<&str> = args.collect();
  match command_line(command, &options) {
    Ok(true) => ExitCode::SUCCESS,
    Ok(false) => ExitCode::FAILURE,
    // The reader has gone away: nothing is wrong.
    Err(error) if error.kind() == io::ErrorKind::BrokenPipe => {
      ExitCode::SUCCESS
    }
    Err(error) => {
      eprintln!("oracle: {error}");
      ExitCode::FAILURE
    }
  }
}

fn command_line(command: &str, options: &[&str]) -> io::Result<bool> {
  let mut out = BufWriter::new(io::stdout().lock());
  match command {
    "listing" => {
      let mut bytes = vec![];
      io::stdin().lock().read_to_end(&mut bytes)?;
      out.write_all(replay::listing(&bytes).as_bytes())?;
    }
    "generate" => {
      let Options { seed, count, sort, small, .. } = parse(command, options)?;
      let mut progress = Progress::new("generate", count);
      for index in 0..count {
        let input = generate::generate(seed, index, sort, small);
        replay::write_input(&mut out, &input)?;
        progress.step();
      }
    }
    "crowded" => {
      for input in crowded::crowded(parse(command, options)?.seed) {
        replay::write_input(&mut out, &input)?;
      }
    }
    "labels" => {
      let Options { seed, count, .. } = parse(command, options)?;
      let mut progress = Progress::new(command, count);
      for index in 0..count {
        replay::write_input(&mut out, &labels::labels(seed, index))?;
        progress.step();
      }
    }
    "cases" => {
      let Options { seed, count, .. } = parse(command, options)?;
      computed::cases(&mut out, seed, count)?;
    }
    "pairs" => {
      for pair in pairs::pairs() {
        replay::write_input(&mut out, &pair.input)?;
      }
    }
    "replay-list" => {
      for input in pairs::replay_list() {
        replay::write_input(&mut out, &input)?;
      }
    }
    "answers" => each(command, |input| {
      out.write_all(replay::whole_answer(input).as_bytes())
    })?,
    "form" => {
      each(command, |input| out.write_all(replay::form_line(input).as_bytes()))?
    }
    "text" => {
      each(command, |input| out.write_all(replay::readable(input).as_bytes()))?
    }
    "check" => {
      let mut counts = check::Counts::default();
      each(command, |input| counts.check(input).map_err(io::Error::other))?;
      writeln!(out, "{counts}")?;
    }
    "bench" => return bench::bench(&mut out, options),
    "compare" => return compare::compare(&mut out, &parse(command, options)?),
    "recheck" => {
      let inputs = Inputs(BufReader::new(io::stdin().lock()));
      return compare::recheck(&mut out, inputs);
    }
    "texts" => return texts::texts(&mut out, &parse(command, options)?),
    "mutants" => return mutants::mutants(&mut out, &parse(command, options)?),
    "lengths" => return compare::lengths(&mut out, &parse(command, options)?),
    "stress" => {
      let Options { seed, count, sort, small, .. } = parse(command, options)?;
      return selftest::stress(&mut out, seed, count, sort, small);
    }
    "selftest" => return selftest::selftest(&mut out),
    _ => {
      eprintln!("{USAGE}");
      return Ok(false);
    }
  }
  out.flush()?;
  Ok(true)
}

/// Does something with each input of standard input.
fn each(
  what: &str,
  mut action: impl FnMut(&Input) -> io::Result<()>,
) -> io::Result<()> {
  let mut progress = Progress::new(what, 0);
  for input in Inputs(BufReader::new(io::stdin().lock())) {
    action(&input?)?;
    progress.step();
  }
  Ok(())
}

/// The options that a command takes.
fn options_of(command: &str) -> &'static str {
  match command {
    "crowded" => "--seed",
    "cases" | "labels" => "--seed --count",
    "mutants" => "--seed --count --jobs",
    "texts" => "--seed --count --jobs --small",
    "generate" | "stress" => "--seed --count --small --valid --damaged --mixed",
    _ => "--seed --count --jobs --small --valid --damaged --mixed --out",
  }
}

fn parse<'a>(command: &str, options: &[&'a str]) -> io::Result<Options<'a>> {
  let mut parsed = Options {
    seed: 1,
    count: 100,
    sort: Sort::Mixed,
    small: false,
    jobs: jobs::all_cores(),
    out: "failing.replay",
  };
  let taken = options_of(command);
  let mut options = options.iter();
  while let Some(option) = options.next() {
    let mut number = || {
      options
        .next()
        .and_then(|n| n.parse().ok())
        .ok_or_else(|| io::Error::other(format!("{option} wants a number")))
    };
    if !taken.split(' ').any(|taken| taken == *option) {
      let refused = format!("{command} takes {taken}, and no {option}");
      return Err(io::Error::other(refused));
    }
    match *option {
      "--seed" => parsed.seed = number()?,
      "--count" => parsed.count = number()?,
      "--valid" => parsed.sort = Sort::Valid,
      "--damaged" => parsed.sort = Sort::Damaged,
      "--mixed" => parsed.sort = Sort::Mixed,
      "--small" => parsed.small = true,
      "--jobs" => parsed.jobs = number()?.max(1) as usize,
      "--out" => {
        let wanted = || io::Error::other("--out wants a file");
        parsed.out = options.next().copied().ok_or_else(wanted)?;
      }
      _ => unreachable!("options_of names no other"),
    }
  }
  Ok(parsed)
}
