//! A listing for people: calls by name, variables and literals from the text,
//! notes in words with the line's text and the range marked under it.

use crate::built::LONGEST_LINE;
use crate::display::{Marked, clean, marked};
use crate::spelling::{FUNCTIONS, MODES, OPERATORS, PREFIXES, STATEMENTS};
use crate::tree::{Number, Range, pieces};
use crate::word;
use crate::{Compiled, Entry, EntryKind, Record};
use std::fmt::Write;

/// Document 01's calls, from 1.
const CALLS: [&str; 47] = [
  "no-op",
  "op",
  "number",
  "string",
  "variable",
  "element",
  "place",
  "place of element",
  "place of function",
  "inkey$",
  "function",
  "user function",
  "unary",
  "number operator",
  "text operator",
  "assign integer",
  "assign real",
  "assign text",
  "jump if zero",
  "goto",
  "gosub",
  "on",
  "for",
  "next",
  "while",
  "begin def fn",
  "end def fn",
  "dim",
  "field",
  "read",
  "restore",
  "input",
  "input from file",
  "open",
  "load bytes",
  "set row",
  "set column",
  "print number",
  "print text",
  "print spc",
  "print tab",
  "newline",
  "flush",
  "write number",
  "write text",
  "drop number",
  "drop text",
];

/// The readable listing of what a text was compiled to; `lines` are the lengths
/// of its lines in units.
pub fn listing(lines: &[usize], text: &[u16], compiled: &Compiled) -> String {
  let lines: Vec<String> =
    pieces(text, lines.iter().copied()).map(String::from_utf16_lossy).collect();
  let (mut names, mut data) = (vec![], vec![]);
  for entry in compiled.entries() {
    match entry.kind {
      EntryKind::Name { .. } => names.push(entry),
      EntryKind::Datum { .. } => data.push(entry),
      EntryKind::Byte { .. } => {}
    }
  }
  let book = Book { text, names, data };
  let mut out = String::new();
  // Lines that make no record are shown, too.
  let mut shown = 0;
  for (at, record) in compiled.records().enumerate() {
    while shown <= record.line && shown < lines.len() {
      writeln!(out, "{}", clean(lines[shown].trim_end())).unwrap();
      shown += 1;
    }
    let call = called(&record);
    let line = lines.get(record.line).map_or("", String::as_str);
    let row = format!("{at:6}  {call}{}", book.arguments(&record, line));
    writeln!(out, "{}", row.trim_end()).unwrap();
  }
  for note in compiled.notes() {
    let line = lines.get(note.line).map_or("", |line| line.trim_end());
    let kind = if note.warning { "warning" } else { "error" };
    let Marked { line, carets } = marked(line, note.range, usize::MAX);
    let class = note.class;
    writeln!(out, "{kind}[{class}]: {note}\n  {line}\n  {carets}").unwrap();
  }
  out
}

/// The text, and the entries that records cite.
struct Book<'a> {
  text: &'a [u16],
  names: Vec<Entry>,
  data: Vec<Entry>,
}

impl Book<'_> {
  /// What is shown behind a record's call.
  fn arguments(&self, record: &Record, line: &str) -> String {
    let [a, b, c] = record.args;
    let name = |number: u32| self.spelling(number);
    let target = |address: u32| match address {
      u32::MAX => "nowhere".to_string(),
      _ => address.to_string(),
    };
    match record.call {
      2 if b == 0 => format!(" {}", statement(a)),
      2 => format!(" {}, {}", statement(a), many(b, "operand")),
      3 => format!(" {}", literal(record, line)),
      4 => format!(" \"{}\"", piece(self.text, a as usize, b as usize)),
      5 | 7 | 12 => format!(" {}", name(a)),
      6 | 8 | 28 => format!(" {}, {}", name(a), many(b, "subscript")),
      9 => format!(" {}({})", name(a), name(b)),
      11 => format!(" {}, {}", spelled(&FUNCTIONS, a), many(b, "argument")),
      13 => format!(" {}", spelled(&PREFIXES, a)),
      14 | 15 => format!(" {}", spelled(&OPERATORS, a)),
      19 => format!(" to {}", target(a)),
      20 | 21 => format!(" {}", target(a)),
      22 => format!(", {}", many(a, "jump")),
      23 if b == 1 => format!(" {} with step", name(a)),
      23 => format!(" {}", name(a)),
      24 if a == 0 => String::new(),
      24 => format!(" {}", name(a - 1)),
      25 => format!(", condition at {a}, end at {}", target(b)),
      26 => format!(" {}({}), end at {}", name(a), name(b), target(c)),
      29 => format!(", {}", many(a, "field")),
      31 => format!(" to datum {a}{}", self.datum(a)),
      32 if a == 1 => format!(", {}, with prompt", many(b, "place")),
      32 => format!(", {}", many(b, "place")),
      33 => format!(", {}", many(a, "place")),
      34 if b == 1 => format!(" {} with length", spelled(&MODES, a)),
      34 => format!(" {}", spelled(&MODES, a)),
      35 => format!(", {} from byte {a}", many(b, "byte")),
      44 | 45 => {
        let place = if a == 1 { " to file" } else { "" };
        let end = if b == 1 { " at the end" } else { "" };
        format!("{place}{end}")
      }
      _ if word_of_call(record).is_none() => format!(" {a} {b} {c}"),
      _ => String::new(),
    }
  }

  /// A name as first written, with its sigil.
  fn spelling(&self, number: u32) -> String {
    let Some(entry) = self.names.get(number as usize) else {
      return format!("name {number}");
    };
    let mut name = piece(self.text, entry.start, entry.len);
    if let EntryKind::Name { sigil } = entry.kind {
      match sigil {
        0 => {}
        0x24 | 0x25 => name.extend(char::from_u32(sigil as u32)),
        _ => name += &format!(" with the sign {sigil}"),
      }
    }
    name
  }

  /// A datum as written.
  fn datum(&self, number: u32) -> String {
    self.data.get(number as usize).map_or(String::new(), |entry| {
      format!(" ({})", piece(self.text, entry.start, entry.len))
    })
  }
}

/// A call's word; none if document 01 has no such call.
fn word_of_call(record: &Record) -> Option<&'static str> {
  let place = record.call.checked_sub(1)?;
  CALLS.get(place as usize).copied()
}

fn called(record: &Record) -> String {
  let call = || format!("call {}", record.call);
  word_of_call(record).map_or_else(call, str::to_string)
}

fn statement(case: u32) -> String {
  or_number(STATEMENTS.get(case as usize).copied(), case)
}

/// The word of a case in a table.
fn spelled<T>(table: &[(&str, T)], case: u32) -> String {
  or_number(table.get(case as usize).map(|(word, _)| *word), case)
}

/// A word, or the number of what has none.
fn or_number(word: Option<&str>, number: u32) -> String {
  word.map_or_else(|| number.to_string(), str::to_string)
}

fn many(count: u32, thing: &str) -> String {
  format!("{count} {thing}{}", if count == 1 { "" } else { "s" })
}

/// A piece of the text. What lies outside it, or is longer than a line can
/// be, is shown as nothing.
fn piece(text: &[u16], start: usize, len: usize) -> String {
  let rest = text.get(start..).unwrap_or(&[]);
  let piece = rest.get(..len).filter(|_| len <= LONGEST_LINE);
  clean(&String::from_utf16_lossy(piece.unwrap_or(&[])))
}

/// A literal as written; its value where that is another, as in a delay.
fn literal(record: &Record, line: &str) -> String {
  let Range { start, end } = record.range;
  let [e, m, _] = record.args;
  let written: String =
    line.chars().skip(start).take(end.saturating_sub(start)).collect();
  match written.parse::<f64>() {
    Ok(value) if Number::from(value) == (Number { e, m }) => written,
    _ if e > Number::TOO_LARGE.e => format!("{m} * 2^{}", e - 160),
    _ => (m as f64 * 2f64.powi(e as i32 - 160)).to_string(),
  }
}

/// The lengths of a sheet's lines.
pub fn line_lengths(sheet: &[u32]) -> Vec<usize> {
  let heads = sheet.iter().filter(|head| word::kind(**head) == word::LINE);
  heads.map(|head| word::payload(*head)).collect()
}
