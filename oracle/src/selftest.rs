//! The tests, and `stress`: generated inputs answered, checked and counted.

use crate::ast::*;
use crate::cases;
use crate::check;
use crate::compare;
use crate::computed;
use crate::form;
use crate::generate::{self, Sort};
use crate::labels;
use crate::maker::{decimal, value};
use crate::mutants;
use crate::pairs;
use crate::points::{self, Changes};
use crate::progress::Progress;
use crate::recorder::{self, Recorder};
use crate::replay;
use crate::rng::Rng;
use crate::run::{self, Answer, Input};
use crate::sheet;
use crate::standins;
use crate::texts;
use std::collections::{BTreeMap, BTreeSet};
use std::fmt::{self, Display, Formatter};
use std::io::{self, Write};
use std::panic::{self, AssertUnwindSafe};

use crate::rust_text::{self, EXPR_RS, STMT_RS};

pub fn selftest(out: &mut impl Write) -> io::Result<bool> {
  type Test = fn() -> Result<String, String>;
  let tests: [(&str, Test); 24] = [
    ("options that a command does not take are refused", options),
    ("tables follow the enums of stmt.rs and expr.rs", tables),
    ("the project's tables are the Rust's, each word", rust_text::tables_held),
    ("the worked example", worked_example),
    ("the pairs to run", pairs_to_run),
    ("refusals and places worked out by hand", form_cases),
    ("listings worked out by hand", readings),
    ("a quoted datum of one quote panics in the Rust", one_quote_panics),
    ("rounding up and to the nearest", rounding),
    ("units left out of a name", units_left_out),
    ("decimal texts and their values", decimals),
    ("sheets there and back", round_trips),
    ("form and decoder on damaged sheets", damaged),
    ("one word changed: no earlier place offends", one_word_changed),
    ("the listing program's input", listing_input),
    ("the fullest sheets of 2,048 words", fullest),
    ("buffers just long enough and one short", buffers),
    ("generated inputs, with CodeGen beside", generated),
    ("sheets crowded with labels", crowded_labels),
    ("the replay list covers all", replay_list),
    ("the cases of crates/cases reach all", computed::stored),
    ("the comparison tells every change", compare::tells_changes),
    ("trees printed as text and read again", texts::some),
    ("changed texts read, printed and read again", mutants::some),
  ];
  let mut failed = 0;
  for (name, test) in tests {
    match guarded(test) {
      Ok(said) => writeln!(out, "ok    {name}{said}")?,
      Err(error) => {
        failed += 1;
        writeln!(out, "WRONG {name}: {error}")?;
      }
    }
    out.flush()?;
  }
  writeln!(out, "{} passed, {failed} failed", tests.len() - failed)?;
  Ok(failed == 0)
}

/// Runs something; a panic becomes an error.
pub fn guarded<T>(
  action: impl FnOnce() -> Result<T, String>,
) -> Result<T, String> {
  panic::catch_unwind(AssertUnwindSafe(action)).unwrap_or_else(|panic| {
    let said = panic
      .downcast_ref::<String>()
      .cloned()
      .or_else(|| panic.downcast_ref::<&str>().map(|s| s.to_string()))
      .unwrap_or_default();
    Err(format!("panic: {said}"))
  })
}

pub fn same<T: PartialEq + fmt::Debug>(a: T, b: T) -> Result<(), String> {
  if a == b { Ok(()) } else { Err(format!("{a:?} is not {b:?}")) }
}

// ---------------------------------------------------------------- tests

/// The names of an enum's cases in a source, in order.
fn cases(source: &str, name: &str) -> Vec<String> {
  let head = format!("pub enum {name} {{\n");
  let body = source.split_once(&head).unwrap().1;
  let body = body.split_once("\n}").unwrap().0;
  body
    .lines()
    .filter(|line| line.starts_with("  ") && !line.starts_with("   "))
    .map(|line| line.trim())
    .filter(|line| line.starts_with(char::is_alphabetic))
    .map(|line| {
      line.split(|c: char| !c.is_alphanumeric()).next().unwrap().to_string()
    })
    .collect()
}

/// The case's name, as Debug prints it.
fn case_name(node: &impl fmt::Debug) -> String {
  let text = format!("{node:?}");
  text.split(|c: char| !c.is_alphanumeric()).next().unwrap().to_string()
}

fn options() -> Result<String, String> {
  let taken = crate::parse("texts", &["--seed", "3", "--small"]);
  let taken = taken.map_err(|error| error.to_string())?;
  same((taken.seed, taken.small), (3, true))?;
  let refused = [
    ("texts", ["--valid", "--damaged", "--mixed", "--out"]),
    ("mutants", ["--valid", "--small", "--out", "--unknown"]),
    ("crowded", ["--count", "--small", "--jobs", "--out"]),
    ("cases", ["--valid", "--small", "--jobs", "--out"]),
  ];
  for (command, options) in refused {
    for option in options {
      let said = match crate::parse(command, &[option]) {
        Ok(_) => "taken".to_string(),
        Err(error) => error.to_string(),
      };
      if !said.ends_with(&format!("and no {option}")) {
        return Err(format!("{command} {option}: {said}"));
      }
    }
  }
  Ok(String::new())
}

fn tables() -> Result<String, String> {
  let stmts = cases(STMT_RS, "StmtKind");
  let exprs = cases(EXPR_RS, "ExprKind");
  same(stmts.len(), 72)?;
  same(exprs.len(), 10)?;
  let mut seen = [0; 72];
  for index in 0..3000 {
    let input = generate::generate(7, index, Sort::Valid, false);
    let prog = sheet::decode(&input.words).ok_or("no tree")?;
    for line in &prog.lines {
      for stmt in line.stmt_arena.all() {
        let case = sheet::stmt_case(&stmt.kind) as usize;
        same(&case_name(&stmt.kind), &stmts[case])?;
        seen[case] += 1;
      }
      for expr in line.expr_arena.all() {
        let case = sheet::expr_case(&expr.kind) as usize;
        same(&case_name(&expr.kind), &exprs[case])?;
      }
    }
  }
  // FSEEK alone is never made.
  let unseen: Vec<usize> = (0..72).filter(|&case| seen[case] == 0).collect();
  same(unseen, vec![69])?;

  let kinds = cases(EXPR_RS, "SysFuncKind");
  same(kinds.len(), sheet::SYS_FUNCS.len())?;
  for (name, kind) in kinds.iter().zip(sheet::SYS_FUNCS) {
    let shown = format!("{kind:?}").replace('$', "");
    same(name.to_uppercase(), shown)?;
  }
  let ops = cases(EXPR_RS, "BinaryOpKind");
  let shown =
    ["=", "<>", ">", "<", ">=", "<=", "+", "-", "*", "/", "^", "AND", "OR"];
  let wanted = [
    "Eq", "Ne", "Gt", "Lt", "Ge", "Le", "Add", "Sub", "Mul", "Div", "Pow",
    "And", "Or",
  ];
  same(ops, wanted.map(String::from).to_vec())?;
  same(sheet::BINARY_OPS.map(|op| format!("{op:?}")), shown.map(String::from))?;
  let ops = cases(EXPR_RS, "UnaryOpKind");
  same(ops, ["Not", "Neg", "Pos"].map(String::from).to_vec())?;
  same(
    sheet::UNARY_OPS.map(|op| format!("{op:?}")),
    ["NOT", "-", "+"].map(String::from),
  )?;
  let modes: Vec<String> = cases(STMT_RS, "FileMode")
    .into_iter()
    .filter(|mode| mode != "Error" && mode != "Random")
    .map(|mode| mode.to_uppercase())
    .collect();
  same(sheet::FILE_MODES[0], FileMode::Error)?;
  same(sheet::FILE_MODES[1], FileMode::Random)?;
  let others: Vec<String> =
    sheet::FILE_MODES[2..].iter().map(|mode| format!("{mode:?}")).collect();
  same(modes, others)?;
  same(
    cases(STMT_RS, "PrintElement"),
    ["Expr", "Comma", "Semicolon"].map(String::from).to_vec(),
  )?;
  Ok(String::new())
}

fn worked_example() -> Result<String, String> {
  let pair = pairs::worked_example();
  let bytes = replay::program_bytes(&pair.input);
  same(replay::listing(&bytes), "0 0 20 0 0 0\n1 0 2 17 0 0\n".into())?;
  let answer = "answer 0 0 2 0 0\nr 335544320 16789514 0 0 0\nr 33554432 16777216 17 0 0\n";
  same(replay::whole_answer(&pair.input), answer.into())?;
  Ok(String::new())
}

fn listing_and_book(input: &Input) -> (String, Option<Vec<[u32; 5]>>) {
  match run::answer(input) {
    Answer::Refused(refusal) => (format!("refused {}\n", refusal.number), None),
    Answer::Accepted(made) => {
      let book: Vec<[u32; 5]> = (made.recorder.entries.iter())
        .map(|e| [e.kind, e.number, e.start as u32, e.length as u32, e.extra])
        .collect();
      (replay::listing_of(&made), Some(book))
    }
  }
}

fn form_cases() -> Result<String, String> {
  let cases = cases::form_cases();
  for case in &cases {
    let input = &case.input;
    let refusal = form::refusal(&input.words, &input.units, input.work);
    let found = refusal.map_or((0, 0), |r| (r.number, r.place));
    same(found, (case.number, case.place))
      .map_err(|error| format!("{error}\n{}", replay::readable(input)))?;
  }
  Ok(format!(", {} inputs", cases.len()))
}

fn readings() -> Result<String, String> {
  let readings = cases::readings();
  for reading in &readings {
    let name = |error| format!("{}: {error}", reading.name);
    let (listing, book) = listing_and_book(&reading.input);
    same(listing.as_str(), reading.listing).map_err(name)?;
    if reading.book.is_some() {
      same(&book, &reading.book).map_err(name)?;
    }
  }
  Ok(format!(", {} inputs", readings.len()))
}

fn pairs_to_run() -> Result<String, String> {
  let pairs = pairs::pairs();
  let count = pairs.len();
  for pair in pairs {
    let name = |error| format!("{}: {error}", pair.name);
    let (listing, book) = listing_and_book(&pair.input);
    same(&listing, &pair.listing).map_err(name)?;
    if pair.book.is_some() {
      same(&book, &pair.book).map_err(name)?;
    }
    if pair.input.words.len() <= 2048 {
      let bytes = replay::program_bytes(&pair.input);
      same(&replay::listing(&bytes), &pair.listing).map_err(name)?;
    }
  }
  Ok(format!(", {count} inputs"))
}

fn one_quote_panics() -> Result<String, String> {
  let pairs = pairs::pairs();
  let pair = pairs.iter().find(|pair| pair.name == "datum of one quote");
  let input = &pair.ok_or("no such pair")?.input;
  standins::set_strict(true);
  let hook = panic::take_hook();
  panic::set_hook(Box::new(|_| {}));
  let result = guarded(|| {
    run::compile(&input.words, &input.units);
    Ok(())
  });
  panic::set_hook(hook);
  standins::set_strict(false);
  if result.is_ok() {
    return Err("it did not".into());
  }
  let made = run::compile(&input.words, &input.units);
  same(made.one_quotes, 1)?;
  Ok(String::new())
}

fn rounding() -> Result<String, String> {
  let mut rng = Rng::new(3);
  for round in 0..20000 {
    let e = if round < 2000 { 120 + round / 45 } else { rng.between(1, 255) };
    let e = e as u32;
    let m = match rng.below(4) {
      0 => 1 << 31,
      1 => u32::MAX,
      2 => (1 << 31) + (1 << rng.below(31)),
      _ => (1 << 31) | rng.next() as u32,
    };
    let num = f64::from(standins::Mbf5 { e, m });
    let up = standins::Mbf5::try_from(num.ceil()).map_err(|_| "too large")?;
    same(recorder::round_up(e, m), (up.e, up.m))?;
    // Exact: a number has 32 bits, and from 2^32 on it is whole.
    let nearest = standins::Mbf5::try_from((num + 0.5).floor());
    let nearest = nearest.map_err(|_| "too large")?;
    same(points::nearest(e, m), (nearest.e, nearest.m))?;
  }
  Ok(String::new())
}

/// Document 02's names, and some more, with the units that are left out.
fn units_left_out() -> Result<String, String> {
  let names = [
    ("DIA ONE$", 4),
    ("A B", 2),
    ("A $", 1),
    ("A  B C%", 5),
    ("A   %", 3),
    ("DIA$", 0),
    ("A", 0),
  ];
  for (name, wanted) in names {
    let units: Vec<u16> = name.encode_utf16().collect();
    same(points::left_out(&units), wanted)?;
  }
  Ok(String::new())
}

fn decimals() -> Result<String, String> {
  let mut rng = Rng::new(4);
  for _ in 0..20000 {
    let places = rng.below(20) as u32;
    let m = rng.next() % (1 << 28);
    let text = decimal(m, places);
    let value = value(m, places);
    let number = f64::from(standins::Mbf5 { e: value.e, m: value.m });
    same(text.parse::<f64>().ok(), Some(number))?;
  }
  Ok(String::new())
}

fn round_trips() -> Result<String, String> {
  let count = 3000;
  for index in 0..count {
    let small = index % 3 == 0;
    let mut rng = Rng::at(11, index);
    let input = generate::sheet_and_text(&mut rng, small);
    let show = |error| format!("{error}\n{}", replay::readable(&input));
    let work = input.words.len();
    same(form::refusal(&input.words, &input.units, work), None)
      .map_err(show)?;
    let prog = sheet::decode(&input.words)
      .ok_or("no tree")
      .map_err(|e| show(e.into()))?;
    same(&sheet::encode(&prog), &input.words).map_err(show)?;
    literals_agree(&input, &prog).map_err(show)?;
  }
  Ok(format!(", {count} sheets"))
}

/// A literal whose text reads as a number that needs no rounding carries this
/// number, unless the generator meant otherwise (the texts it uses then are
/// left out here).
fn literals_agree(input: &Input, prog: &Program) -> Result<(), String> {
  let mut start = 0;
  for line in &prog.lines {
    let units = &input.units[start..start + line.content.source_len];
    start += line.content.source_len;
    for (expr, value) in line.expr_arena.all_with_values() {
      let Some(value) = value else { continue };
      let text = String::from_utf16_lossy(&units[expr.range.range()]);
      let text = text.replace(' ', "");
      let free = ["7", "", "12", ".", "ABC", "1E5", "9"];
      if free.contains(&text.as_str()) || text.contains(['-', '+']) {
        continue;
      }
      let Ok(number) = text.parse::<f64>() else { continue };
      let (e, m) = if number > 1.8e38 {
        (256, 0)
      } else {
        match standins::Mbf5::try_from(number) {
          Ok(num) => (num.e, num.m),
          Err(()) => continue,
        }
      };
      // LOAD's odd bytes may carry anything.
      if text.parse::<u8>().is_err() && ["1.5", "1E1"].contains(&text.as_str())
      {
        continue;
      }
      same((&text, value.e, value.m), (&text, e, m))?;
    }
  }
  Ok(())
}

fn damaged() -> Result<String, String> {
  let count = 6000;
  let mut accepted = 0;
  for index in 0..count {
    let input = generate::generate(12, index, Sort::Damaged, index % 2 == 0);
    let show = |error: String| format!("{error}\n{}", replay::readable(&input));
    let work = input.words.len();
    let refusal = form::refusal(&input.words, &input.units, work);
    let prog = sheet::decode(&input.words);
    match (refusal, prog) {
      (None, None) => return Err(show("taken, but no tree".into())),
      (None, Some(prog)) => {
        accepted += 1;
        same(&sheet::encode(&prog), &input.words).map_err(show)?;
      }
      (Some(refusal), _) => {
        let end = input.words.len();
        if refusal.place > end || (refusal.number < 4 && refusal.place != 0) {
          return Err(show(format!("{refusal:?}")));
        }
        prefix_decides(&input, refusal).map_err(show)?;
      }
    }
  }
  Ok(format!(", {count} sheets, {accepted} still taken"))
}

/// What stands behind the offending word (behind the 05 for a quoted datum)
/// changes nothing, unless the end offends.
fn prefix_decides(input: &Input, refusal: form::Refusal) -> Result<(), String> {
  if refusal.number < 4 || refusal.place == input.words.len() {
    return Ok(());
  }
  let mut words = input.words.clone();
  for word in words.iter_mut().skip(refusal.place + 2) {
    *word ^= 0x5a5a_5a5a;
  }
  same(form::refusal(&words, &input.units, words.len()), Some(refusal))
}

/// A good sheet with one word changed offends there or later; only a 05 that
/// turns to yes makes the range before it offend.
fn one_word_changed() -> Result<String, String> {
  let count = 20000;
  let mut refused = 0;
  for index in 0..count {
    let mut rng = Rng::at(14, index);
    let mut input = generate::sheet_and_text(&mut rng, index % 4 != 0);
    let at = rng.below(input.words.len());
    let old = input.words[at];
    input.words[at] = crate::damage::changed_word(&mut rng, old);
    let work = input.words.len();
    let Some(refusal) = form::refusal(&input.words, &input.units, work) else {
      continue;
    };
    refused += 1;
    let quoted = refusal.number == 7
      && refusal.place + 1 == at
      && sheet::kind(old) == sheet::YES_NO
      && input.words[at] == sheet::word(sheet::YES_NO, 1);
    if refusal.place < at && !quoted {
      let shown = replay::readable(&input);
      return Err(format!("{refusal:?}, changed at {at}\n{shown}"));
    }
  }
  Ok(format!(", {count} sheets, {refused} refused"))
}

fn listing_input() -> Result<String, String> {
  let refused = "refused 1\n".to_string();
  let pair = pairs::worked_example();
  let bytes = replay::program_bytes(&pair.input);
  for cut in 0..bytes.len() {
    same(&replay::listing(&bytes[..cut]), &refused)?;
  }
  let mut longer = bytes.clone();
  longer.extend([1, 2, 3]);
  same(&replay::listing(&longer), &pair.listing)?;
  for (words, units) in [(2049u32, 0u32), (0, 2049), (u32::MAX, u32::MAX)] {
    let mut bytes = vec![];
    bytes.extend(words.to_le_bytes());
    bytes.extend(units.to_le_bytes());
    bytes.resize(20000, 0);
    same(&replay::listing(&bytes), &refused)?;
  }
  // No word at all, and no line.
  same(replay::listing(&[0; 8]), "refused 4\n".into())?;
  let none = Input { words: vec![0x0f000000], ..Input::default() };
  same(
    replay::listing(&replay::program_bytes(&none)),
    "0 0 2 17 0 0\n".into(),
  )?;
  Ok(String::new())
}

/// 9, 10 and 11 by the lengths, the lowest first; 3 before them.
fn buffers() -> Result<String, String> {
  let mut tried = 0;
  for index in 0..400 {
    let mut rng = Rng::at(15, index);
    let input = generate::sheet_and_text(&mut rng, index % 2 == 0);
    let made = run::compile(&input.words, &input.units);
    let sizes = [
      input.words.len(),
      5 * made.recorder.records.len(),
      4 * made.notes.len(),
      4 * made.recorder.entries.len(),
    ];
    // Each buffer: just enough, or short by one, two or all.
    for choice in 0..256usize {
      let mut lengths = sizes;
      let mut wanted = 0;
      for (buffer, number) in [(3, 11), (2, 10), (1, 9), (0, 3)] {
        let short = match choice >> (2 * buffer) & 3 {
          0 => 0,
          1 => 1,
          2 => 2,
          _ => sizes[buffer],
        };
        lengths[buffer] = sizes[buffer].saturating_sub(short);
        if lengths[buffer] < sizes[buffer] {
          wanted = number;
        }
      }
      let [work, list, notes, book] = lengths;
      let input = Input { work, list, notes, book, ..input.clone() };
      let number = match run::answer(&input) {
        Answer::Refused(refusal) => {
          same(refusal.place, 0)?;
          refusal.number
        }
        Answer::Accepted(_) => 0,
      };
      same(number, wanted)
        .map_err(|error| format!("{error}\n{}", replay::readable(&input)))?;
      tried += 1;
    }
  }
  Ok(format!(", {tried} lendings"))
}

fn fullest() -> Result<String, String> {
  for (input, wanted) in pairs::fullest() {
    if input.words.len() > 2048 || input.units.len() > 2048 {
      return Err("above the limit".into());
    }
    let made = run::compile(&input.words, &input.units);
    let recorder = &made.recorder;
    let sizes =
      [recorder.records.len(), made.notes.len(), recorder.entries.len()];
    same(sizes, wanted)?;
    same(form::refusal(&input.words, &input.units, input.work), None)?;
  }
  Ok(String::new())
}

fn generated() -> Result<String, String> {
  let mut seen = Seen::default();
  for index in 0..2000 {
    let input = generate::generate(13, index, Sort::Mixed, index % 4 == 0);
    seen.take(&input)?;
  }
  Ok(format!(", 2000 inputs, {} accepted", seen.accepted))
}

/// Each sort of labels twice; notes of all three classes on labels come up.
fn crowded_labels() -> Result<String, String> {
  let count = 2 * labels::SORTS.len() as u64;
  let mut seen = Seen::default();
  for index in 0..count {
    let input = labels::labels(16, index);
    seen.take(&input)?;
    let sheet = |error| format!("sheet {index}: {error}");
    labels_found(&input).map_err(sheet)?;
  }
  for class in 1..=3 {
    let notes = seen.classes.get(&class);
    notes.ok_or_else(|| format!("no note of class {class}"))?;
  }
  Ok(format!(", {count} sheets, {} accepted", seen.accepted))
}

/// "A target is the address of the last line with that label, an omitted one
/// label 0. A DATA index is the first DATA of that label." For sheets without
/// ELSE, whose jumps are all to labels.
fn labels_found(input: &Input) -> Result<(), String> {
  let prog = sheet::decode(&input.words).ok_or("no tree")?;
  let records = run::compile(&input.words, &input.units).recorder.records;
  let (mut addrs, mut firsts) = (BTreeMap::new(), BTreeMap::new());
  let (mut jumps, mut restores, mut data) = (vec![], vec![], 0);
  for (at, line) in prog.lines.iter().enumerate() {
    let before = data;
    for stmt in line.stmt_arena.all() {
      match &stmt.kind {
        StmtKind::Data(items) => data += items.len().get() as u32,
        StmtKind::GoTo { label, .. } | StmtKind::GoSub(label) => {
          jumps.push(label.as_ref().map_or(0, |(_, label)| label.0));
        }
        StmtKind::On { labels, .. } => {
          let label = |label: &Option<Label>| label.map_or(0, |l| l.0);
          jumps.extend(labels.iter().map(|(_, l)| label(l)));
        }
        StmtKind::Restore(label) => {
          restores.push(label.as_ref().map(|(_, label)| label.0));
        }
        _ => {}
      }
    }
    if let Some((_, label)) = &line.content.label {
      let addr = records.partition_point(|record| record.line < at);
      addrs.insert(label.0, addr as u32);
      if data > before {
        firsts.entry(label.0).or_insert(before);
      }
    }
  }
  let found = |calls: [u32; 2]| -> Vec<u32> {
    let records = records.iter().filter(|r| calls.contains(&r.call));
    records.map(|record| record.args[0]).collect()
  };
  let unknown = recorder::UNKNOWN;
  let addr = |label| *addrs.get(label).unwrap_or(&unknown);
  same(found([20, 21]), jumps.iter().map(addr).collect())?;
  let first = |label: &Option<u16>| {
    let first = label.as_ref().and_then(|label| firsts.get(label));
    first.copied().unwrap_or(0)
  };
  same(found([31, 31]), restores.iter().map(first).collect())
}

fn replay_list() -> Result<String, String> {
  let inputs = pairs::replay_list();
  let mut seen = Seen::default();
  let mut progress = Progress::new("replay list", inputs.len() as u64);
  for input in &inputs {
    seen.take(input)?;
    progress.step();
  }
  let gaps = seen.gaps();
  if !gaps.is_empty() {
    return Err(format!("not reached: {}", gaps.join(", ")));
  }
  if inputs.len() < 3000 {
    return Err(format!("{} inputs", inputs.len()));
  }
  Ok(format!(", {} inputs, {} accepted", inputs.len(), seen.accepted))
}

// ---------------------------------------------------------------- stress

pub fn stress(
  out: &mut impl Write,
  seed: u64,
  count: u64,
  sort: Sort,
  small: bool,
) -> io::Result<bool> {
  let mut seen = Seen::default();
  let mut progress = Progress::new("stress", count);
  let mut wrong = 0;
  for index in 0..count {
    let result = guarded(|| {
      let input = generate::generate(seed, index, sort, small);
      seen.take(&input)
    });
    if let Err(error) = result {
      wrong += 1;
      writeln!(out, "WRONG input {index} of seed {seed}: {error}")?;
    }
    progress.step();
  }
  writeln!(out, "{seen}")?;
  writeln!(out, "{wrong} wrong")?;
  out.flush()?;
  Ok(wrong == 0)
}

/// What a run of inputs has reached.
#[derive(Default)]
struct Seen {
  inputs: usize,
  accepted: usize,
  one_quotes: usize,
  changes: Changes,
  words: usize,
  largest: usize,
  refusals: BTreeMap<u32, usize>,
  places: BTreeMap<u32, BTreeSet<usize>>,
  calls: BTreeMap<u32, usize>,
  classes: BTreeMap<u32, usize>,
  stmts: BTreeMap<u32, usize>,
  exprs: BTreeMap<u32, usize>,
  entries: BTreeMap<u32, usize>,
  check: check::Counts,
}

impl Seen {
  /// Answers and checks one input.
  fn take(&mut self, input: &Input) -> Result<(), String> {
    let show = |error: String| format!("{error}\n{}", replay::readable(input));
    self.inputs += 1;
    self.words += input.words.len();
    self.largest = self.largest.max(input.words.len());
    guarded(|| self.answer(input)).map_err(show)?;
    guarded(|| self.check.check(input))?;
    Ok(())
  }

  fn answer(&mut self, input: &Input) -> Result<(), String> {
    let made = match run::answer(input) {
      Answer::Refused(refusal) => {
        *self.refusals.entry(refusal.number).or_default() += 1;
        self.places.entry(refusal.number).or_default().insert(refusal.place);
        return Ok(());
      }
      Answer::Accepted(made) => made,
    };
    self.accepted += 1;
    self.one_quotes += made.one_quotes;
    self.changes.add(made.changes);
    compare::bounds(input.words.len(), made.counts())?;
    names_spelled(&made.recorder, &input.units)?;
    places_known(&made.recorder, input)?;
    for record in &made.recorder.records {
      *self.calls.entry(record.call).or_default() += 1;
    }
    for note in &made.notes {
      *self.classes.entry(note.class).or_default() += 1;
      let warning = matches!(note.class, 3 | 10 | 11);
      same(note.severity, if warning { 2 } else { 1 })?;
    }
    for entry in &made.recorder.entries {
      *self.entries.entry(entry.kind).or_default() += 1;
    }
    let prog = sheet::decode(&input.words).ok_or("no tree")?;
    for line in &prog.lines {
      for stmt in line.stmt_arena.all() {
        *self.stmts.entry(sheet::stmt_case(&stmt.kind)).or_default() += 1;
      }
      for expr in line.expr_arena.all() {
        *self.exprs.entry(sheet::expr_case(&expr.kind)).or_default() += 1;
      }
    }
    Ok(())
  }

  /// What is never reached.
  fn gaps(&self) -> Vec<String> {
    let mut gaps = vec![];
    let mut want =
      |what: &str, seen: &BTreeMap<u32, usize>, numbers: Vec<u32>| {
        for number in numbers {
          if !seen.contains_key(&number) {
            gaps.push(format!("{what} {number}"));
          }
        }
      };
    want("refusal", &self.refusals, (1..=11).collect());
    want("call", &self.calls, (1..=47).collect());
    want("class", &self.classes, (1..=13).collect());
    want("statement", &self.stmts, (0..72).filter(|&n| n != 69).collect());
    want("expression", &self.exprs, (0..10).collect());
    want("entry", &self.entries, (50..=52).collect());
    if self.changes.delay_ends == 0 {
      gaps.push("an end of a delay that is not rounded up".into());
    }
    gaps
  }
}

impl Display for Seen {
  fn fmt(&self, f: &mut Formatter) -> fmt::Result {
    writeln!(
      f,
      "{} inputs, {} accepted, {} words on average, {} at most, {} quoted data of one quote",
      self.inputs,
      self.accepted,
      self.words / self.inputs.max(1),
      self.largest,
      self.one_quotes
    )?;
    for (refusal, count) in &self.refusals {
      let places = self.places[refusal].len();
      writeln!(f, "refusal {refusal}: {count} at {places} places")?;
    }
    writeln!(f, "calls {:?}", self.calls)?;
    writeln!(f, "classes {:?}", self.classes)?;
    writeln!(f, "statements {:?}", self.stmts)?;
    writeln!(f, "expressions {:?}", self.exprs)?;
    writeln!(f, "entries {:?}", self.entries)?;
    writeln!(f, "not reached: {:?}", self.gaps())?;
    writeln!(f, "document 02: {}", self.changes)?;
    write!(f, "CodeGen: {}", self.check)
  }
}

/// A name's entry spells the name that the compiler handed over.
fn names_spelled(recorder: &Recorder, units: &[u16]) -> Result<(), String> {
  let entries =
    recorder.entries.iter().filter(|entry| entry.kind == recorder::NAME);
  for (entry, name) in entries.zip(&recorder.names) {
    let text = &units[entry.start..entry.start + entry.length];
    let mut spelled = String::from_utf16_lossy(text).to_ascii_uppercase();
    if entry.extra != 0 {
      spelled.push(entry.extra as u8 as char);
    }
    same(&spelled, name)?;
  }
  Ok(())
}

/// Every place in the book is that of a name, a datum or a literal of the
/// tree, a byte reads as its entry says, and a string's start is one unit
/// behind its record's range.
fn places_known(recorder: &Recorder, input: &Input) -> Result<(), String> {
  let prog = sheet::decode(&input.words).ok_or("no tree")?;
  let mut names = BTreeSet::new();
  let mut data = BTreeSet::new();
  let mut literals = BTreeSet::new();
  let mut starts = vec![];
  let mut start = 0;
  for line in &prog.lines {
    starts.push(start);
    for stmt in line.stmt_arena.all() {
      let mut add = |range: &Option<Range>| {
        names.extend(range.as_ref().map(|range| start + range.start));
      };
      match &stmt.kind {
        StmtKind::Def { name, param, .. } => {
          add(name);
          add(param);
        }
        StmtKind::For { var, .. } => add(var),
        StmtKind::Next { vars } => vars.iter().for_each(add),
        StmtKind::Data(items) => {
          for datum in items.iter() {
            let quoted = datum.is_quoted as usize;
            data.insert((start + datum.range.start + quoted, quoted as u32));
          }
        }
        _ => {}
      }
    }
    for expr in line.expr_arena.all() {
      let range = &expr.range;
      match &expr.kind {
        ExprKind::Ident => {
          names.insert(start + range.start);
        }
        ExprKind::UserFuncCall { func: Some(name), .. }
        | ExprKind::Index { name: Some(name), .. } => {
          names.insert(start + name.start);
        }
        ExprKind::NumberLit => {
          literals.insert((start + range.start, range.end - range.start));
        }
        _ => {}
      }
    }
    start += line.content.source_len;
  }
  let mut numbers = BTreeMap::new();
  for entry in &recorder.entries {
    let number = numbers.entry(entry.kind).or_insert(0);
    same(entry.number, *number)?;
    *number += 1;
    let known = match entry.kind {
      recorder::NAME => names.contains(&entry.start),
      recorder::DATUM => data.contains(&(entry.start, entry.extra)),
      _ => {
        let text = &input.units[entry.start..entry.start + entry.length];
        let text = String::from_utf16_lossy(text).replace(' ', "");
        text.parse() == Ok(entry.extra as u8)
          && literals.contains(&(entry.start, entry.length))
      }
    };
    if !known {
      return Err(format!("a place of nothing: {entry:?}"));
    }
  }
  for record in &recorder.records {
    if record.call == 4 {
      let start = starts[record.line] + record.range.start + 1;
      same(record.args[0] as usize, start)?;
    }
  }
  Ok(())
}
