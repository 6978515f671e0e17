//! All that is wrong with a form, from one run: what the reader tells, what
//! the compiler notes, and why a sheet is refused, each at its place in the
//! text, with what was expected and what to do.

use crate::basic::words::trailing_blanks;
use crate::basic::{self, Form, Problem, Severity};
use crate::compiled::{Compiled, Note, Refusal};
use crate::explain::{self, Explanation};
use crate::library::compile;
use crate::tree::*;
use crate::walk::EachStmt;
use crate::word::{self, EXPR, LINE, RANGE, STMT, payload, range_of};
use std::fmt;

/// A form that was read and compiled as far as it can be.
#[derive(Clone, PartialEq, Debug)]
pub struct Checked {
  pub form: Form,
  /// What was compiled; none if there is an error of reading or a refusal.
  pub compiled: Option<Compiled>,
  /// In order of line, then of place.
  pub findings: Vec<Finding>,
}

impl Checked {
  pub fn count(&self, severity: Severity) -> usize {
    let same = |finding: &&Finding| finding.severity == severity;
    self.findings.iter().filter(same).count()
  }

  pub fn has_errors(&self) -> bool {
    self.count(Severity::Error) > 0
  }
}

/// Something wrong, or worth a second look.
#[derive(Clone, PartialEq, Eq, Debug)]
pub struct Finding {
  /// The line, from 0, and a range of its units.
  pub line: usize,
  pub range: Range,
  pub severity: Severity,
  pub code: Code,
  /// Without a capital at its begin or a full stop at its end, as are
  /// `expected` and `hint`.
  pub message: String,
  /// The line's label.
  pub label: Option<u16>,
  pub expected: Option<String>,
  /// What to do.
  pub hint: Option<String>,
}

/// Which list a number of a finding is of.
#[derive(Clone, Copy, PartialEq, Eq, Debug)]
pub enum Code {
  Reading,
  /// A note of this class.
  Class(u32),
  /// A refusal with this number.
  Refusal(u32),
}

impl fmt::Display for Code {
  fn fmt(&self, f: &mut fmt::Formatter<'_>) -> fmt::Result {
    match self {
      Self::Reading => Ok(()),
      Self::Class(class) => write!(f, "[{class}]"),
      Self::Refusal(number) => write!(f, "[refusal {number}]"),
    }
  }
}

impl fmt::Display for Finding {
  /// As `error[8]: text longer than 255`.
  fn fmt(&self, f: &mut fmt::Formatter<'_>) -> fmt::Result {
    write!(f, "{}{}: {}", self.severity, self.code, self.message)
  }
}

impl fmt::Display for Severity {
  fn fmt(&self, f: &mut fmt::Formatter<'_>) -> fmt::Result {
    f.write_str(match self {
      Self::Error => "error",
      Self::Warning => "warning",
    })
  }
}

/// Reads and compiles a text, and tells all that is wrong.
pub fn check(text: &str) -> Checked {
  let form = basic::read(text);
  let mut findings: Vec<Finding> =
    form.problems.iter().map(|problem| read_finding(&form, problem)).collect();
  let mut program = form.program.clone();
  let (compiled, refused) = match form.is_cut {
    // Of a part of a form the compiler would note what is not wrong.
    true => (None, vec![]),
    false => compile_mended(&form, &mut program),
  };
  let is_sound = form.is_read() && refused.is_empty();
  findings.extend(refused);
  if let Some(compiled) = &compiled {
    findings.extend(noted(&form, compiled));
  }
  findings.sort_by_key(|f| (f.line, f.range.start, f.range.end));
  Checked { form, compiled: compiled.filter(|_| is_sound), findings }
}

fn label_of(form: &Form, line: usize) -> Option<u16> {
  form.program.lines.get(line)?.label.map(|(_, label)| label)
}

fn read_finding(form: &Form, problem: &Problem) -> Finding {
  Finding {
    line: problem.line,
    range: problem.range,
    severity: problem.severity,
    code: Code::Reading,
    message: problem.message.clone(),
    label: label_of(form, problem.line),
    expected: None,
    hint: problem.hint.clone(),
  }
}

// ---------------------------------------------------------------- refusals

/// Compiles a tree; what is refused at a place is told and taken out, so that
/// the notes of the rest are made.
fn compile_mended(
  form: &Form,
  program: &mut Program,
) -> (Option<Compiled>, Vec<Finding>) {
  let mut refused = vec![];
  let mut sheet = program.encode();
  loop {
    let refusal = match compile(&sheet, &form.units) {
      Ok(compiled) => return (Some(compiled), refused),
      Err(refusal) => refusal,
    };
    let Some(place) = refusal.place() else {
      refused.push(whole_refused(form, refusal, sheet.len()));
      return (None, refused);
    };
    if matches!(refusal, Refusal::Fseek { .. }) {
      for (line, range) in mend_fseeks(program) {
        refused.push(place_refused(form, refusal, line, range));
      }
    } else {
      let spot = Spot::of(&sheet, place);
      if !is_told(form, refusal, &spot) {
        refused.push(place_refused(form, refusal, spot.line, spot.range));
      }
      if !spot.mend(refusal, program) {
        return (None, refused);
      }
    }
    let mended = program.encode();
    if mended == sheet {
      return (None, refused);
    }
    sheet = mended;
  }
}

/// Whether the reader told of what is refused: an error stands in its range,
/// or parts of the line are too deep in each other.
fn is_told(form: &Form, refusal: Refusal, spot: &Spot) -> bool {
  let inside = spot.range.start..=spot.range.end;
  let is_deep = matches!(refusal, Refusal::TooDeep { .. });
  let tells = |problem: &Problem| {
    problem.severity == Severity::Error
      && (inside.contains(&problem.range.start)
        || is_deep && problem.message == basic::TOO_DEEP)
  };
  let mut here = form.problems.iter().filter(|p| p.line == spot.line);
  here.any(tells)
}

/// A refusal of the form as a whole, told at its first line.
fn whole_refused(form: &Form, refusal: Refusal, words: usize) -> Finding {
  let (message, expected, hint) = match refusal {
    Refusal::TooLong => (
      "form too long",
      format!("at most 65,536 words of its tree, here are {words}"),
      "take out remarks and blanks, or split the form in two",
    ),
    Refusal::ListTooShort => (
      "form too long",
      "at most 65,535 instructions".to_string(),
      "split the form in two",
    ),
    Refusal::Surrogate => (
      "letter that no recorder has",
      "letters of the first 65,536 alone".to_string(),
      "take it out",
    ),
    _ => (
      "form not compiled",
      refusal.to_string(),
      "split the form in two, and try each half",
    ),
  };
  Finding {
    line: 0,
    range: Range::default(),
    severity: Severity::Error,
    code: Code::Refusal(refusal.number()),
    message: message.to_string(),
    label: label_of(form, 0),
    expected: Some(expected),
    hint: Some(hint.to_string()),
  }
}

/// A refusal at a place of the form.
fn place_refused(
  form: &Form,
  refusal: Refusal,
  line: usize,
  range: Range,
) -> Finding {
  let (message, hint) = match refusal {
    Refusal::TooDeep { .. } => (
      "nested deeper than 64",
      "take it apart: give inner parts to variables, or use more lines",
    ),
    Refusal::Fseek { .. } => (
      "FSEEK is not compiled",
      "read the file from its start, or GET a record by its number",
    ),
    Refusal::Range { .. } => (
      "name or text that cannot be compiled",
      "a name is a letter, then letters, digits or blanks, then % or $",
    ),
    _ => ("statement that cannot be compiled", "write it in another way"),
  };
  Finding {
    line,
    range,
    severity: Severity::Error,
    code: Code::Refusal(refusal.number()),
    message: message.to_string(),
    label: label_of(form, line),
    expected: None,
    hint: Some(hint.to_string()),
  }
}

/// Where in a tree a word of its sheet stands.
struct Spot {
  line: usize,
  /// The statement, counted from 0 in the line, an IF before those in it; none
  /// in the line's head.
  stmt: Option<usize>,
  range: Range,
  /// How far behind the statement's first word; behind that stands its range,
  /// then its first value.
  behind: usize,
}

impl Spot {
  fn of(sheet: &[u32], place: usize) -> Self {
    let (mut line, mut len, mut stmt) = (None, 0, None);
    let (mut stmt_at, mut stmt_range) = (0, Range::default());
    let kind = |at: usize| sheet.get(at).map_or(0, |word| word::kind(*word));
    for at in 0..sheet.len().min(place + 1) {
      match kind(at) {
        LINE => {
          line = Some(line.map_or(0, |line: usize| line + 1));
          len = payload(sheet[at]);
          stmt = None;
          stmt_range = Range::default();
        }
        STMT => {
          stmt = Some(stmt.map_or(0, |stmt: usize| stmt + 1));
          stmt_at = at;
          stmt_range = range_at(sheet, at + 1, len).unwrap_or_default();
        }
        _ => {}
      }
    }
    let at = match kind(place) {
      STMT | EXPR => place + 1,
      _ => place,
    };
    Self {
      line: line.unwrap_or(0),
      stmt,
      range: range_at(sheet, at, len).unwrap_or(stmt_range),
      behind: place.saturating_sub(stmt_at),
    }
  }

  /// Takes out what was refused; says whether there was something to take.
  fn mend(&self, refusal: Refusal, program: &mut Program) -> bool {
    if matches!(refusal, Refusal::Lines { .. }) {
      return false;
    }
    let Some(line) = program.lines.get_mut(self.line) else {
      return false;
    };
    let Some(mut index) = self.stmt else {
      return line.label.take().is_some();
    };
    let is_deep = matches!(refusal, Refusal::TooDeep { .. });
    let mend = match self.behind {
      0 if is_deep => Mend::Branch,
      // A missing value is as deep as the first.
      3.. if is_deep => Mend::Values,
      _ => Mend::Statement,
    };
    mend_at(&mut line.stmts, &mut index, mend)
  }
}

/// The range that a word says, if it is one within a line so long.
fn range_at(sheet: &[u32], at: usize, len: usize) -> Option<Range> {
  let word = *sheet.get(at).filter(|word| word::kind(**word) == RANGE)?;
  let range = range_of(word);
  Some(range).filter(|range| range.start <= range.end && range.end <= len)
}

/// What is taken out with a refused statement.
#[derive(Clone, Copy)]
enum Mend {
  /// The statement.
  Statement,
  /// Its values: of an IF the condition alone, so that the statements in it
  /// are still compiled.
  Values,
  /// It and what stands behind it in its branch, which is as deep.
  Branch,
}

/// Mends the statement that `index` counts; it counts down what it passes.
fn mend_at(stmts: &mut Vec<Stmt>, index: &mut usize, mend: Mend) -> bool {
  for at in 0..stmts.len() {
    if *index == 0 {
      mend_stmt(stmts, at, mend);
      return true;
    }
    *index -= 1;
    if let StmtKind::If { conseq, alt, .. } = &mut stmts[at].kind {
      let is_done = mend_at(conseq, index, mend)
        || alt.as_mut().is_some_and(|alt| mend_at(alt, index, mend));
      if is_done {
        return true;
      }
    }
  }
  false
}

fn mend_stmt(stmts: &mut Vec<Stmt>, at: usize, mend: Mend) {
  match (mend, &mut stmts[at].kind) {
    (Mend::Branch, _) => stmts.truncate(at),
    (Mend::Values, StmtKind::If { cond, .. }) => cond.kind = ExprKind::Error,
    _ => {
      stmts[at] = Stmt { range: Range::default(), kind: StmtKind::NoOp };
    }
  }
}

/// Makes each FSEEK a GET, whose values are of the same kinds, so that these
/// are still compiled; gives their places.
fn mend_fseeks(program: &mut Program) -> Vec<(usize, Range)> {
  let mut found = vec![];
  for (number, line) in program.lines.iter_mut().enumerate() {
    line.visit(&mut EachStmt(|stmt: &mut Stmt| {
      if let StmtKind::Fseek { filenum, offset } = &stmt.kind {
        let (filenum, record) = (filenum.clone(), offset.clone());
        stmt.kind = StmtKind::Get { filenum, record };
        found.push((number, stmt.range));
      }
    }));
  }
  found
}

// ------------------------------------------------------------------- notes

/// The findings of the compiler's notes, but for those that a reading error
/// brought about.
fn noted(form: &Form, compiled: &Compiled) -> Vec<Finding> {
  let facts = Facts::of(form);
  let explanations = explain::explain(&form.units, &form.program);
  let mut behind = explanations.as_slice();
  let mut findings = vec![];
  for note in compiled.notes() {
    let explanation = next_explanation(&mut behind, note);
    if !facts.is_echo(note, explanation) {
      findings.push(facts.finding(note, explanation));
    }
  }
  findings
}

/// A place, or the begin of the blanks before it.
fn without_blanks(line: &[u16], place: usize) -> usize {
  let before = line.get(..place).unwrap_or(&[]);
  place - trailing_blanks(before)
}

/// The explanation of a note. Both stand in order of making; those of
/// statements that were taken out are passed.
fn next_explanation<'a>(
  behind: &mut &'a [Explanation],
  note: Note,
) -> Option<&'a Explanation> {
  if !explain::CLASSES.contains(&note.class) {
    return None;
  }
  let at = behind.iter().position(|explanation| {
    (explanation.line, explanation.class, explanation.range)
      == (note.line, note.class, note.range)
  })?;
  let found = &behind[at];
  *behind = &behind[at + 1..];
  Some(found)
}

/// What the hints go by: the form, its labels, and those of its DATA.
struct Facts<'a> {
  form: &'a Form,
  /// The units of each line.
  lines: Vec<&'a [u16]>,
  labels: Vec<u16>,
  data_labels: Vec<u16>,
}

impl<'a> Facts<'a> {
  fn of(form: &'a Form) -> Self {
    let lines = &form.program.lines;
    let sorted = |has: &dyn Fn(&Line) -> bool| {
      let lines = lines.iter().filter(|line| has(line));
      let mut labels: Vec<u16> =
        lines.filter_map(|l| Some(l.label?.1)).collect();
      labels.sort_unstable();
      labels.dedup();
      labels
    };
    Self {
      form,
      lines: form.program.lines_of(&form.units).map(|line| line.1).collect(),
      labels: sorted(&|_| true),
      data_labels: sorted(&|line| has_data(&line.stmts)),
    }
  }

  fn piece(&self, note: Note) -> String {
    note.range.text(self.lines[note.line])
  }

  /// Whether a note only echoes a reading error: it is there because a part is
  /// missing, or of a name that was not meant as one, and the reading error
  /// stands in its range, or beside it with blanks between at most.
  fn is_echo(&self, note: Note, explanation: Option<&Explanation>) -> bool {
    let may_echo = match note.class {
      2 => self.label_at(note).is_none(),
      4 => explanation.is_some_and(|explanation| explanation.of_missing),
      6 | 10 => true,
      // The range of a missing value is empty.
      12 => note.range.start == note.range.end,
      _ => false,
    };
    may_echo && self.touches_error(note)
  }

  fn touches_error(&self, note: Note) -> bool {
    let (Range { start, end }, line) = (note.range, self.lines[note.line]);
    let touches = |problem: &Problem| {
      let Range { start: place, end: behind } = problem.range;
      let from = without_blanks(line, place);
      (start <= place && from <= end) || (place..behind).contains(&start)
    };
    // The problems are in order of line.
    let problems = &self.form.problems;
    let from = problems.partition_point(|p| p.line < note.line);
    let here = problems[from..].iter().take_while(|p| p.line == note.line);
    here.filter(|p| p.severity == Severity::Error).any(touches)
  }

  /// The label that a note's range says; none where it was left out.
  fn label_at(&self, note: Note) -> Option<u16> {
    self.piece(note).parse().ok()
  }

  fn finding(&self, note: Note, explanation: Option<&Explanation>) -> Finding {
    let mut message = note.to_string();
    if note.class == 10 {
      message += &format!("; it is cut to {}", cut_name(&self.piece(note)));
    }
    let (expected, hint) = match explanation {
      Some(Explanation { expected, hint, .. }) => {
        (Some(expected.clone()), Some(hint.clone()))
      }
      None => self.advice(note),
    };
    let severity = match note.warning {
      true => Severity::Warning,
      false => Severity::Error,
    };
    Finding {
      line: note.line,
      range: note.range,
      severity,
      code: Code::Class(note.class),
      message,
      label: label_of(self.form, note.line),
      expected,
      hint,
    }
  }

  /// What was expected, and what to do, where the tree need not be walked.
  fn advice(&self, note: Note) -> (Option<String>, Option<String>) {
    match note.class {
      1 => self.rising(note),
      2 => self.target(note, &self.labels, "line", "no line has a label"),
      3 => {
        self.target(note, &self.data_labels, "DATA line", "no DATA has a label")
      }
      8 => self.long_text(note),
      9 => (None, Some("write a number below 1.7014118E+38".to_string())),
      10 => {
        let name = cut_name(&self.piece(note));
        let hint = format!(
          "write {name}, or a name without a blank; between two names put a sign"
        );
        (None, Some(hint))
      }
      11 => (
        Some("a comma behind each value of WRITE but the last".to_string()),
        Some("put a comma behind it".to_string()),
      ),
      13 => (
        None,
        Some(
          "put WEND behind the statements that the loop repeats".to_string(),
        ),
      ),
      _ => (None, None),
    }
  }

  fn rising(&self, note: Note) -> (Option<String>, Option<String>) {
    let lines = &self.form.program.lines;
    let before = lines[..note.line].iter().rev().find_map(|l| Some(l.label?.1));
    let behind = lines[note.line + 1..].iter().find_map(|l| Some(l.label?.1));
    let Some(before) = before else {
      return (None, None);
    };
    let hint = match behind {
      Some(behind) if behind > before.saturating_add(1) => format!(
        "write a label between {before} and {behind}, or move the line to its place"
      ),
      _ => "write a greater label, or move the line to its place".to_string(),
    };
    (Some(format!("a label above {before}")), Some(hint))
  }

  /// The nearest labels to one that is not there.
  fn target(
    &self,
    note: Note,
    labels: &[u16],
    things: &str,
    none: &str,
  ) -> (Option<String>, Option<String>) {
    let written = self.label_at(note);
    let expected = match written {
      Some(_) => None,
      None => Some("a label; one that is left out is label 0".to_string()),
    };
    let label = written.unwrap_or(0);
    let at = labels.partition_point(|there| *there < label);
    let below = at.checked_sub(1).map(|at| labels[at]);
    let hint = match (below, labels.get(at)) {
      (Some(a), Some(b)) => format!("{things}s {a} and {b} are there"),
      (Some(a), None) => format!("{things} {a} is the last"),
      (None, Some(b)) => format!("{things} {b} is the first"),
      (None, None) => none.to_string(),
    };
    (expected, Some(hint))
  }

  fn long_text(&self, note: Note) -> (Option<String>, Option<String>) {
    let piece = self.piece(note);
    let inner = piece.strip_prefix('"').unwrap_or(&piece);
    let inner = match piece.len() == inner.len() {
      true => inner,
      false => inner.strip_suffix('"').unwrap_or(inner),
    };
    let letters = inner.encode_utf16().count();
    let line = &self.form.program.lines[note.line];
    let hint = match text_use(&line.stmts, note.range) {
      TextUse::Datum => "make two data of it",
      TextUse::Prompt => "PRINT its first part before",
      TextUse::Value => "cut the text in two, with + between them",
    };
    let expected = format!("at most 255 letters, here are {letters}");
    (Some(expected), Some(hint.to_string()))
  }
}

/// A name as the compiler cuts it: up to its blank, with its sign.
fn cut_name(name: &str) -> String {
  let name = name.to_ascii_uppercase();
  let cut = name.split(' ').next().unwrap_or("");
  match name.chars().last() {
    Some(sign @ ('%' | '$')) if cut.len() < name.len() => {
      format!("{cut}{sign}")
    }
    _ => cut.to_string(),
  }
}

fn has_data(stmts: &[Stmt]) -> bool {
  stmts.iter().any(|stmt| match &stmt.kind {
    StmtKind::Data(_) => true,
    StmtKind::If { conseq, alt, .. } => {
      has_data(conseq) || alt.as_deref().is_some_and(has_data)
    }
    _ => false,
  })
}

/// What a text is written for.
#[derive(Clone, Copy)]
enum TextUse {
  Datum,
  Prompt,
  Value,
}

fn text_use(stmts: &[Stmt], range: Range) -> TextUse {
  let holds = |stmt: &&Stmt| {
    stmt.range.start <= range.start && range.end <= stmt.range.end
  };
  let Some(stmt) = stmts.iter().find(holds) else {
    return TextUse::Value;
  };
  match &stmt.kind {
    StmtKind::Data(_) => TextUse::Datum,
    StmtKind::Input { source: InputSource::Prompt(prompt), .. }
      if *prompt == range =>
    {
      TextUse::Prompt
    }
    StmtKind::If { conseq, alt, .. } => match text_use(conseq, range) {
      TextUse::Value => text_use(alt.as_deref().unwrap_or(&[]), range),
      found => found,
    },
    _ => TextUse::Value,
  }
}
