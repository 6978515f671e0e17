//! `cases`: inputs with what the Rust says, as the definitions of crates/cases,
//! where the prover computes the rules on them.

use crate::ast::*;
use crate::compare;
use crate::generate::{self, Sort};
use crate::pairs::{self, Pair};
use crate::run::{self, Answer, Compiled, Input};
use crate::sheet;
use std::collections::{BTreeMap, BTreeSet};
use std::io::{self, Write};

/// What a case is for: a refusal, a call, a class ..., by its number.
type Aim = (&'static str, u32);

/// The generator's seed and the count of the stored cases.
const STORED: (u64, u64) = (1, 300);

/// An input with what the Rust says, and which aims it reaches.
struct Case {
  input: Input,
  answer: Answer,
  aims: BTreeSet<Aim>,
  name: String,
}

impl Case {
  fn new(input: Input) -> Self {
    let answer = run::answer(&input);
    let mut aims = BTreeSet::new();
    match &answer {
      Answer::Refused(refusal) => {
        aims.insert(("refusal", refusal.number));
      }
      Answer::Accepted(made) => aims_of(&input, made, &mut aims),
    }
    Self { input, answer, aims, name: String::new() }
  }

  /// What the prover has to read: words and units.
  fn size(&self) -> usize {
    self.input.words.len() + self.input.units.len()
  }
}

fn aims_of(input: &Input, made: &Compiled, aims: &mut BTreeSet<Aim>) {
  for record in &made.recorder.records {
    aims.insert(("call", record.call));
    match record.call {
      14 => _ = aims.insert(("operator of numbers", record.args[0])),
      15 => _ = aims.insert(("operator of texts", record.args[0])),
      _ => {}
    }
  }
  aims.extend(made.notes.iter().map(|it| ("class", it.class)));
  aims.extend(made.recorder.entries.iter().map(|it| ("entry", it.kind)));
  let prog = sheet::decode(&input.words).expect("an accepted sheet");
  for line in &prog.lines {
    for stmt in line.stmt_arena.all() {
      aims.insert(("statement", sheet::stmt_case(&stmt.kind)));
      if let StmtKind::Open { mode, .. } = &stmt.kind {
        let place = sheet::place_in(&sheet::FILE_MODES, *mode);
        aims.insert(("mode", place));
      }
    }
    for expr in line.expr_arena.all() {
      aims.insert(("expression", sheet::expr_case(&expr.kind)));
      aims.extend(match &expr.kind {
        ExprKind::SysFuncCall { func, .. } => {
          Some(("function", sheet::place_in(&sheet::SYS_FUNCS, func.1)))
        }
        ExprKind::Unary { op, .. } => {
          Some(("sign", sheet::place_in(&sheet::UNARY_OPS, op.1)))
        }
        _ => None,
      });
    }
  }
}

/// All that the cases together have to reach. FSEEK is refusal 8.
fn all_aims() -> BTreeSet<Aim> {
  let mut all = BTreeSet::new();
  let mut add = |what, numbers: std::ops::Range<u32>| {
    all.extend(numbers.map(|number| (what, number)));
  };
  add("refusal", 1..12);
  add("call", 1..48);
  add("class", 1..14);
  add("entry", 50..53);
  add("statement", 0..69);
  add("statement", 70..72);
  add("expression", 0..10);
  add("function", 0..34);
  add("operator of numbers", 0..13);
  add("operator of texts", 0..7);
  add("sign", 0..3);
  add("mode", 0..6);
  all
}

/// How many words and units a case may have that is there for no aim.
const MOST: usize = 60;

/// So many cases, or more where these take more: the fixed ones and for each
/// aim the smallest input that reaches it; then generated ones in their order.
fn chosen(seed: u64, count: u64) -> Vec<Case> {
  let mut all = fixed();
  let kept = all.len();
  let generated = (0..20 * count)
    .map(|index| generate::generate(seed, index, Sort::Mixed, true))
    .chain((0..6).flat_map(generate::one_of_each));
  all.extend(generated.map(Case::new));
  // The smallest input for each aim; of equals the first.
  let mut best: BTreeMap<Aim, usize> = BTreeMap::new();
  for (at, case) in all.iter().enumerate() {
    for aim in &case.aims {
      let best = best.entry(*aim).or_insert(at);
      if case.size() < all[*best].size() {
        *best = at;
      }
    }
  }
  let mut wanted: BTreeSet<usize> = (0..kept).collect();
  wanted.extend(best.values());
  for (at, case) in all.iter().enumerate() {
    if (wanted.len() as u64) < count && case.size() <= MOST {
      wanted.insert(at);
    }
  }
  for (at, case) in all.iter_mut().enumerate() {
    case.aims.retain(|aim| best[aim] == at);
  }
  let all = all.into_iter().enumerate();
  all.filter(|(at, _)| wanted.contains(at)).map(|(_, case)| case).collect()
}

/// Document 01's example and its 'Pairs to run', each with buffers of a word
/// too many; a word and a unit more than refusal 1 lets pass.
fn fixed() -> Vec<Case> {
  let mut all = vec![];
  for Pair { name, input, .. } in pairs::pairs() {
    let [records, notes, entries] = match run::answer(&input) {
      Answer::Accepted(made) => made.counts(),
      Answer::Refused(_) => [0, 0, 0],
    };
    let (list, notes, book) = (5 * records + 1, 4 * notes + 1, 4 * entries + 1);
    let work = input.words.len();
    all.push((name, Input { list, notes, book, work, ..input }));
  }
  let lent = Input { list: 5, notes: 1, book: 1, work: 1, ..Input::default() };
  let no_line = vec![sheet::word(sheet::PROGRAM, 0)];
  for (name, words, units) in [
    ("65,537 words", vec![0; 65537], vec![]),
    ("65,537 units", no_line, vec![65; 65537]),
  ] {
    all.push((name.into(), Input { words, units, ..lent.clone() }));
  }
  let all = all.into_iter();
  all.map(|(name, input)| Case { name, ..Case::new(input) }).collect()
}

/// A test: crates/cases holds what `cases` makes, and reaches every aim.
pub fn stored() -> Result<String, String> {
  let (seed, count) = STORED;
  if include_str!("../../crates/cases/specs/Cases.antt") != file(seed, count) {
    return Err(format!(
      "crates/cases/specs/Cases.antt is not what this writes: \
      oracle cases --seed {seed} --count {count}"
    ));
  }
  let cases = chosen(seed, count);
  let reached = cases.iter().flat_map(|case| case.aims.iter().copied());
  let missing: Vec<Aim> =
    all_aims().difference(&reached.collect()).copied().collect();
  if cases.len() as u64 != count || !missing.is_empty() {
    return Err(format!("{} cases, not reached: {missing:?}", cases.len()));
  }
  let accepted = |case: &&Case| matches!(case.answer, Answer::Accepted(_));
  let accepted = cases.iter().filter(accepted).count();
  Ok(format!(", {count} cases, {accepted} accepted"))
}

// ------------------------------------------------------------ the file

pub fn cases(out: &mut impl Write, seed: u64, count: u64) -> io::Result<()> {
  out.write_all(file(seed, count).as_bytes())
}

const HEAD: &str = "\
-- Inputs with what the Rust says of them. A comment tells what a case is there for.
use Rattle.std.specs.Prelude.{List, [], ◌∷◌, ◌++◌, codes, replicate}
use Rattle.rules.specs.Outcome.{lengths}
use Rattle.cases.specs.Case.{Case, case, refused, accepted}
";

fn file(seed: u64, count: u64) -> String {
  let mut text = format!(
    "{HEAD}\n-- Written by: oracle cases --seed {seed} --count {count}\n\
    abbrev pub cases : List Case\ncases =\n"
  );
  for (at, case) in chosen(seed, count).iter().enumerate() {
    let mut said = case.name.clone();
    for (what, number) in &case.aims {
      let comma = if said.is_empty() { "" } else { ", " };
      said += &format!("{comma}{what} {number}");
    }
    if !said.is_empty() {
      wrap(&mut text, "    -- ", said.split(' '));
    }
    let begin = if at == 0 { "case" } else { "∷ case" };
    let mut words = Words(vec![begin.into()]);
    for part in [Words::sheet, Words::text, Words::said] {
      part(&mut words, case);
      wrap(&mut text, "    ", words.0.drain(..));
    }
  }
  text + "    ∷ []\n"
}

/// Words with blanks between, in lines of up to 140 letters that begin alike.
fn wrap<T: AsRef<str>>(
  text: &mut String,
  begin: &str,
  words: impl IntoIterator<Item = T>,
) {
  let mut width = 0;
  for word in words {
    let word = word.as_ref();
    let more = word.chars().count() + 1;
    if width > 0 && width + more <= 141 {
      text.push(' ');
      width += more;
    } else {
      if width > 0 {
        text.push('\n');
      }
      text.push_str(begin);
      width = begin.len() + more;
    }
    text.push_str(word);
  }
  text.push('\n');
}

/// Whether a list is long and of one number.
fn is_run<T: PartialEq>(numbers: &[T]) -> bool {
  numbers.len() >= 32 && numbers.iter().all(|number| *number == numbers[0])
}

/// Words that no line is broken in.
struct Words(Vec<String>);

impl Words {
  fn sheet(&mut self, case: &Case) {
    self.list(&case.input.words);
  }

  /// The text, and the lengths of list, notes, book and work.
  fn text(&mut self, case: &Case) {
    let Input { units, list, notes, book, work, .. } = &case.input;
    // Long runs of a unit apart.
    let mut pieces: Vec<Vec<u16>> = vec![vec![]];
    for run in units.chunk_by(|a, b| a == b) {
      if is_run(run) {
        pieces.extend([run.to_vec(), vec![]]);
      } else {
        pieces.last_mut().unwrap().extend(run);
      }
    }
    pieces.retain(|piece| !piece.is_empty());
    match &pieces[..] {
      [] => self.list(&[]),
      pieces => {
        let begin = self.0.len();
        for (at, piece) in pieces.iter().enumerate() {
          if at > 0 {
            self.0.push("++".into());
          }
          self.piece(piece);
        }
        if pieces.len() > 1 {
          self.0[begin].insert(0, '(');
          self.0.last_mut().unwrap().push(')');
        }
      }
    }
    self.0.push(format!("(lengths {list} {notes} {book} {work})"));
  }

  /// Units of a text: its letters, if they are all of ASCII.
  fn piece(&mut self, units: &[u16]) {
    let is_letter = |unit| (32..127).contains(unit);
    if !is_run(units) && units.iter().all(is_letter) {
      let text = String::from_utf16_lossy(units);
      let text = text.replace('\\', "\\\\").replace('"', "\\\"");
      return self.0.push(format!("(codes \"{text}\")"));
    }
    let units: Vec<u32> = units.iter().map(|&unit| unit.into()).collect();
    self.list(&units);
  }

  fn said(&mut self, case: &Case) {
    match &case.answer {
      Answer::Refused(refusal) => {
        let (number, place) = (refusal.number, refusal.place);
        self.0.push(format!("(refused {number} {place})"));
      }
      Answer::Accepted(made) => {
        let [records, notes, entries] = made.counts();
        self.0.push(format!("(accepted {records} {notes} {entries}"));
        for words in compare::words(made) {
          self.list(&words);
        }
        self.0.last_mut().unwrap().push(')');
      }
    }
  }

  /// A list of numbers, those of more than 16 bits hexadecimal.
  fn list(&mut self, numbers: &[u32]) {
    match numbers {
      [] => self.0.push("[]".into()),
      [first, ..] if is_run(numbers) => {
        self.0.push(format!("(replicate {} {first})", numbers.len()));
      }
      _ => {
        let begin = self.0.len();
        self.0.extend(numbers.iter().map(|&number| match number {
          ..0x1_0000 => format!("{number} ∷"),
          _ => format!("0x{number:08X} ∷"),
        }));
        self.0.push("[])".into());
        self.0[begin].insert(0, '(');
      }
    }
  }
}
