//! Findings as JSON, for editors.

use super::report::{self, Placed, Told};
use hollupsa::basic::Severity;
use hollupsa::check::Code;
use std::fmt::{self, Display, Formatter};

/// One object with all files, and a line's end.
pub fn report(told: &[Told]) -> String {
  let counts = Json::Object(vec![
    ("files", Json::Number(told.len())),
    ("errors", Json::Number(report::total(told, Severity::Error))),
    ("warnings", Json::Number(report::total(told, Severity::Warning))),
    ("unread", Json::Number(report::unread(told))),
  ]);
  let files = Json::List(told.iter().map(file).collect());
  format!("{}\n", Json::Object(vec![("files", files), ("counts", counts)]))
}

fn file(told: &Told) -> Json {
  let placed = told.findings.as_deref().unwrap_or(&[]).iter();
  let findings = placed.map(|placed| finding(told, placed)).collect();
  Json::Object(vec![
    ("file", Json::text(&told.file)),
    ("error", Json::option(&told.findings.as_ref().err().cloned())),
    ("findings", Json::List(findings)),
  ])
}

fn finding(told: &Told, placed: &Placed) -> Json {
  let Placed { finding, line, column, end_column } = placed;
  let number = |number: u32| Json::Number(number as usize);
  let (class, refusal) = match finding.code {
    Code::Reading => (Json::Null, Json::Null),
    Code::Class(class) => (number(class), Json::Null),
    Code::Refusal(refusal) => (Json::Null, number(refusal)),
  };
  Json::Object(vec![
    ("file", Json::text(&told.file)),
    ("line", Json::Number(*line)),
    ("column", Json::Number(*column)),
    ("endLine", Json::Number(*line)),
    ("endColumn", Json::Number(*end_column)),
    ("severity", Json::text(&finding.severity.to_string())),
    ("class", class),
    ("refusal", refusal),
    ("message", Json::text(&finding.message)),
    ("label", finding.label.map_or(Json::Null, |label| number(label.into()))),
    ("expected", Json::option(&finding.expected)),
    ("hint", Json::option(&finding.hint)),
    ("source", Json::text(told.source(placed))),
  ])
}

enum Json {
  Null,
  Number(usize),
  Text(String),
  List(Vec<Json>),
  Object(Vec<(&'static str, Json)>),
}

impl Json {
  fn text(text: &str) -> Self {
    Self::Text(text.to_string())
  }

  fn option(text: &Option<String>) -> Self {
    text.as_deref().map_or(Self::Null, Self::text)
  }
}

impl Display for Json {
  fn fmt(&self, f: &mut Formatter) -> fmt::Result {
    match self {
      Self::Null => f.write_str("null"),
      Self::Number(number) => write!(f, "{number}"),
      Self::Text(text) => quoted(text, f),
      Self::List(items) => {
        separated(items, ["[", "]"], f, |item, f| item.fmt(f))
      }
      Self::Object(fields) => {
        separated(fields, ["{", "}"], f, |(name, value), f| {
          quoted(name, f)?;
          f.write_str(":")?;
          value.fmt(f)
        })
      }
    }
  }
}

fn separated<T>(
  items: &[T],
  [open, close]: [&str; 2],
  f: &mut Formatter,
  write: impl Fn(&T, &mut Formatter) -> fmt::Result,
) -> fmt::Result {
  f.write_str(open)?;
  for (at, item) in items.iter().enumerate() {
    f.write_str(if at == 0 { "" } else { "," })?;
    write(item, f)?;
  }
  f.write_str(close)
}

/// Control letters are written as their numbers.
fn quoted(text: &str, f: &mut Formatter) -> fmt::Result {
  f.write_str("\"")?;
  for c in text.chars() {
    match c {
      '"' | '\\' => write!(f, "\\{c}")?,
      '\n' => f.write_str("\\n")?,
      '\t' => f.write_str("\\t")?,
      c if c.is_control() || matches!(c, '\u{2028}' | '\u{2029}') => {
        write!(f, "\\u{:04x}", c as u32)?
      }
      c => write!(f, "{c}")?,
    }
  }
  f.write_str("\"")
}
