//! Findings as text: one paragraph each, with the source line and carets.

use super::{ERRORS, UNUSABLE, input};
use hollupsa::basic::{LONGEST_LINE, Severity};
use hollupsa::check::Finding;
use hollupsa::display::{self, Marked, marked};
use hollupsa::tree::Range;
use std::ffi::OsStr;
use std::fmt::Write;

/// What is told of a file.
pub struct Told {
  /// As it was given, for editors.
  pub file: String,
  /// As it is shown.
  pub name: String,
  /// The lines of the text without their ends.
  lines: Vec<String>,
  /// Or why it could not be read.
  pub findings: Result<Vec<Placed>, String>,
}

/// A finding with its place for people: line and column from 1, in letters.
pub struct Placed {
  pub finding: Finding,
  pub line: usize,
  pub column: usize,
  /// Behind the last letter.
  pub end_column: usize,
}

impl Told {
  pub fn of(file: &OsStr, text: &str, findings: Vec<Finding>) -> Self {
    let lines = text.split_inclusive('\n').map(shown_part).collect();
    let mut told = Self { lines, ..Self::unread(file, String::new()) };
    let place = |finding| told.placed(finding);
    told.findings = Ok(findings.into_iter().map(place).collect());
    told
  }

  pub fn unread(file: &OsStr, why: String) -> Self {
    let (file, name) = (file.to_string_lossy().into_owned(), input::name(file));
    Self { file, name, lines: vec![], findings: Err(why) }
  }

  fn placed(&self, finding: Finding) -> Placed {
    let source = self.lines.get(finding.line).map_or("", String::as_str);
    // Editors do not show the mark at a text's begin.
    let mark = finding.line == 0 && source.starts_with(display::BOM);
    let column = |units| {
      let before = display::letters_before(source, units);
      before.saturating_sub(mark as usize) + 1
    };
    let Range { start, end } = finding.range;
    let (column, end_column) = (column(start), column(end));
    Placed { line: finding.line + 1, column, end_column, finding }
  }

  /// The line of the text that a finding is in.
  fn line(&self, placed: &Placed) -> &str {
    self.lines.get(placed.line - 1).map_or("", String::as_str)
  }

  /// The same without the mark at the text's begin, as columns count it.
  pub fn source(&self, placed: &Placed) -> &str {
    let line = self.line(placed);
    match placed.line {
      1 => line.strip_prefix(display::BOM).unwrap_or(line),
      _ => line,
    }
  }

  pub fn count(&self, severity: Severity) -> usize {
    let findings = self.findings.as_deref().unwrap_or(&[]);
    findings.iter().filter(|it| it.finding.severity == severity).count()
  }
}

/// A line without its end, and without what stands behind the longest that is
/// read.
fn shown_part(line: &str) -> String {
  let line = display::without_end(line);
  line.chars().take(LONGEST_LINE).collect()
}

/// The widest source line that is shown whole.
const COLUMNS: usize = 72;

/// All findings of a file.
pub fn text(told: &Told) -> String {
  let findings = told.findings.as_deref().unwrap_or(&[]);
  findings.iter().map(|placed| paragraph(told, placed)).collect()
}

fn paragraph(told: &Told, placed: &Placed) -> String {
  let Placed { finding, line, column, .. } = placed;
  let name = &told.name;
  let head = display::clean(&finding.to_string());
  let mut out = format!("{name}:{line}:{column}: {head}\n");
  let mut row = |text: String| writeln!(out, "  {text}").unwrap_or_default();
  if let Some(label) = finding.label {
    row(format!("label {label}"));
  }
  let source = told.line(placed);
  let Marked { line, carets } = marked(source, finding.range, COLUMNS);
  row(format!("| {line}"));
  row(format!("| {carets}"));
  if let Some(expected) = &finding.expected {
    row(format!("expected: {}", display::clean(expected)));
  }
  if let Some(hint) = &finding.hint {
    row(format!("hint: {}", display::clean(hint)));
  }
  out
}

pub fn total(told: &[Told], severity: Severity) -> usize {
  told.iter().map(|file| file.count(severity)).sum()
}

pub fn unread(told: &[Told]) -> usize {
  told.iter().filter(|file| file.findings.is_err()).count()
}

/// The last line: `2 errors, 1 warning in 3 files, 1 file not read`.
pub fn counts(told: &[Told]) -> String {
  let unread = unread(told);
  let read = told.len() - unread;
  let mut parts = vec![];
  if read > 0 {
    let errors = many(total(told, Severity::Error), "error");
    let warnings = many(total(told, Severity::Warning), "warning");
    let files = match told.len() {
      1 => String::new(),
      _ => format!(" in {}", many(read, "file")),
    };
    parts.push(format!("{errors}, {warnings}{files}"));
  }
  if unread > 0 {
    parts.push(format!("{} not read", many(unread, "file")));
  }
  format!("{}\n", parts.join(", "))
}

fn many(count: usize, thing: &str) -> String {
  match count {
    0 => format!("no {thing}s"),
    1 => format!("1 {thing}"),
    _ => format!("{count} {thing}s"),
  }
}

/// The exit status.
pub fn status(told: &[Told]) -> u8 {
  if unread(told) > 0 {
    UNUSABLE
  } else if total(told, Severity::Error) > 0 {
    ERRORS
  } else {
    0
  }
}

#[cfg(test)]
mod tests {
  use super::*;
  use hollupsa::check::Code;

  /// The mark at the text's begin is no column; one elsewhere is.
  #[test]
  fn the_mark_at_the_begin_is_no_column() {
    let finding = |line| Finding {
      line,
      range: Range { start: 4, end: 6 },
      severity: Severity::Error,
      code: Code::Reading,
      message: String::new(),
      label: None,
      expected: None,
      hint: None,
    };
    let text = "\u{feff}10 CLS\n\u{feff}20 CLS\n";
    let findings = vec![finding(0), finding(1)];
    let told = Told::of(OsStr::new("a.bas"), text, findings);
    let place = |it: &Placed| (it.line, it.column, it.end_column);
    let places: Vec<_> = told.findings.unwrap().iter().map(place).collect();
    assert_eq!(places, [(1, 4, 6), (2, 5, 7)]);
  }
}
