//! The reader: a form's BASIC text to a tree. It reads the whole dialect that
//! docs/BASIC.md describes, or says at the place that it can't. It never
//! panics and never guesses: what might be meant in two ways is told as a
//! warning, with how it was read.
//!
//! Behind an error it goes on, at the next colon or line at the latest, with
//! parts left out as the compiler takes them (an `Error` expression, an absent
//! name), so that one run tells all that is wrong.

pub(crate) mod expr;
mod stmt;
pub(crate) mod words;

use crate::tree::{Label, Line, Program, Range};
pub use crate::word::{LONGEST_LINE, LONGEST_TEXT};
use std::collections::HashSet;
use words::Word;

/// What the reader made of a text.
#[derive(Clone, PartialEq, Debug)]
pub struct Form {
  /// The text in units, as the tree's ranges cite it. It is the text's own
  /// units but where a problem is told: what no sheet can carry (a letter
  /// outside the first 65,536, a line above 4,095 units) is replaced, so that
  /// the rest of the form can still be compiled.
  pub units: Vec<u16>,
  pub program: Program,
  /// In order of place.
  pub problems: Vec<Problem>,
  /// Whether the text is longer than the compiler takes, which is told: the
  /// lines behind that length are not read, and stand in the tree as empty.
  pub is_cut: bool,
}

#[derive(Clone, Copy, PartialEq, Eq, Debug)]
pub enum Severity {
  Error,
  Warning,
}

/// What the reader found wrong, or worth a second look.
#[derive(Clone, PartialEq, Eq, Debug)]
pub struct Problem {
  /// The line, from 0, and a range of its units.
  pub line: usize,
  pub range: Range,
  pub severity: Severity,
  /// Without a capital at its begin or a full stop at its end.
  pub message: String,
  /// What to do.
  pub hint: Option<String>,
}

impl Form {
  /// Whether the text was read whole: there is no error among the problems.
  pub fn is_read(&self) -> bool {
    self.problems.iter().all(|problem| problem.severity != Severity::Error)
  }
}

/// The greatest label in a text.
pub const GREATEST_LABEL: u16 = 9999;

/// So many parts in each other are read: parentheses, signs, calls, IFs. The
/// compiler takes 64 nodes of the tree.
const DEEPEST: usize = 100;

/// Said where parts are too deep in each other for the reader.
pub(crate) const TOO_DEEP: &str = "too many parts in each other";

/// What stands in the place of half a letter outside the first 65,536.
const REPLACED: u16 = 0xfffd;

/// The tree of a text. A line is as long as its units with its line feed.
/// Behind the longest text that the compiler takes no line is read.
pub fn read(text: &str) -> Form {
  let mut form = Form {
    units: vec![],
    program: Program { lines: vec![] },
    problems: vec![],
    is_cut: false,
  };
  let mut passed = 0;
  for (number, line) in text.split_inclusive('\n').enumerate() {
    let mut units: Vec<u16> = line.encode_utf16().collect();
    let len = units.len();
    passed += len;
    let (line, mut problems) = match form.is_cut {
      false => read_line(number, &mut units),
      true => (empty_line(&mut units), vec![]),
    };
    if !form.is_cut && passed > LONGEST_TEXT {
      form.is_cut = true;
      problems.push(text_too_long(number, len));
    }
    form.units.extend(units);
    form.program.lines.push(line);
    form.problems.extend(problems);
  }
  form
}

/// A line that is not read, and what is left of its units.
fn empty_line(units: &mut Vec<u16>) -> Line {
  let mut line = Line { len: units.len(), label: None, stmts: vec![] };
  shorten(&mut line, units);
  line
}

/// A line, and its problems in order of place.
fn read_line(number: usize, units: &mut Vec<u16>) -> (Line, Vec<Problem>) {
  let mut reader = Reader::new(number, units);
  let (label, stmts) = reader.line();
  let read = reader.units.len();
  let mut problems = reader.problems;
  let mut line = Line { len: units.len(), label, stmts };
  if units.len() > LONGEST_LINE {
    problems.retain(|problem| problem.range.start < LONGEST_LINE);
    // A line that holds others is not too long itself.
    if read == body_len(units) {
      problems.push(line_too_long(number, units.len()));
    }
    shorten(&mut line, units);
  }
  problems.sort_by_key(|problem| problem.range.start);
  (line, problems)
}

fn line_too_long(line: usize, len: usize) -> Problem {
  let message = format!("line longer than {LONGEST_LINE} units");
  let hint = "make two lines of it, at a colon outside IF";
  too_long(line, len, message, hint)
}

fn text_too_long(line: usize, len: usize) -> Problem {
  let message = format!("form longer than {LONGEST_TEXT} units");
  let hint = "take out remarks and blanks, or split the form in two; \
              what follows is not read";
  too_long(line, len, message, hint)
}

fn too_long(line: usize, len: usize, message: String, hint: &str) -> Problem {
  let (range, severity) = (Range { start: 0, end: len }, Severity::Error);
  Problem { line, range, severity, message, hint: Some(hint.to_string()) }
}

/// Leaves the label of a line, so that jumps find it.
fn shorten(line: &mut Line, units: &mut Vec<u16>) {
  let kept = match &line.label {
    Some((range, _)) if range.end < LONGEST_LINE => range.end,
    _ => {
      line.label = None;
      0
    }
  };
  units.truncate(kept);
  units.push(b'\n' as u16);
  line.len = units.len();
  line.stmts.clear();
}

/// A statement's word with letters directly behind it.
#[derive(Clone, Copy)]
struct Begun {
  /// The word and the letters.
  run: Range,
  word: &'static str,
  /// Where the word ends.
  behind: usize,
  /// Whether it all looks like a name that is assigned.
  assigned: bool,
}

/// Reads one line.
struct Reader<'a> {
  /// The line's units without its end.
  units: &'a [u16],
  line: usize,
  /// The place of the next unit to be read.
  at: usize,
  /// Where the last token ended.
  end: usize,
  /// So many parts stand around the one that is read.
  depth: usize,
  /// So many branches of IFs stand around it.
  branches: usize,
  /// The rest of the statement is passed over.
  failed: bool,
  /// It is told that parts of the line are too deep in each other.
  deep: bool,
  /// The IF of an ELSE was not read to its THEN, so the ELSE is not found.
  lost_if: bool,
  /// The word of the statement, if letters stand directly behind it.
  begun: Option<Begun>,
  /// The statement word that the name of an assignment is near to.
  near: Option<&'static str>,
  /// A name that a reserved word ended without a blank before: its begin, and
  /// that word with its place.
  glued: Option<(usize, usize, Word)>,
  problems: Vec<Problem>,
  /// The places of the errors, so that each is told once.
  told: HashSet<usize>,
}

impl<'a> Reader<'a> {
  /// A reader of a line. What no sheet can carry is told and replaced; behind
  /// a carriage return that ends no line nothing is read.
  fn new(line: usize, units: &'a mut [u16]) -> Self {
    let body = body_len(units);
    let is_return = |unit: &u16| *unit == b'\r' as u16;
    let len = units[..body].iter().position(is_return).unwrap_or(body);
    let halves = replace_halves(&mut units[..body]);
    let mut reader = Self {
      units: &units[..len],
      line,
      at: 0,
      end: 0,
      depth: 0,
      branches: 0,
      failed: false,
      deep: false,
      lost_if: false,
      begun: None,
      near: None,
      glued: None,
      problems: vec![],
      told: HashSet::new(),
    };
    for at in halves.into_iter().filter(|at| *at < len) {
      reader.tell_letter(at);
    }
    if len < body {
      let hint = "end lines with a line feed; \
                  what follows in this one is not read";
      let range = Range { start: len, end: len + 1 };
      reader.error(range, "carriage return inside a line", Some(hint));
    }
    reader
  }

  /// A letter of two units.
  fn tell_letter(&mut self, at: usize) {
    let range = Range { start: at, end: at + 2 };
    // Both halves are one letter.
    self.told.insert(at + 1);
    let hint = "take it out: the recorders cannot show it";
    self.error(range, "letter outside the first 65,536", Some(hint));
  }

  // ------------------------------------------------------------ telling

  /// Tells an error, once for a place.
  fn error(
    &mut self,
    range: Range,
    message: impl Into<String>,
    hint: Option<&str>,
  ) {
    if self.told.insert(range.start) {
      let hint = self.glued_hint(range).or(hint.map(str::to_string));
      let hint = hint.or_else(|| self.begun_hint(range));
      self.push(Severity::Error, range, message.into(), hint);
    }
  }

  fn warning(
    &mut self,
    range: Range,
    message: impl Into<String>,
    hint: Option<String>,
  ) {
    self.push(Severity::Warning, range, message.into(), hint);
  }

  fn push(
    &mut self,
    severity: Severity,
    range: Range,
    message: String,
    hint: Option<String>,
  ) {
    let line = self.line;
    self.problems.push(Problem { line, range, severity, message, hint });
  }

  /// Where the error is at a reserved word that ended a name.
  fn glued_hint(&self, range: Range) -> Option<String> {
    let (start, at, word) =
      self.glued.filter(|glued| glued.1 == range.start)?;
    let end = words::run_end(self.units, at);
    let run = self.shown(Range { start, end });
    let word = word.text;
    Some(format!(
      "no name holds the reserved word {word}: choose another name than {run}, or put a blank before {word} if that is meant"
    ))
  }

  /// Where the statement's word may be meant as the begin of a name.
  fn begun_hint(&self, range: Range) -> Option<String> {
    let begun = self.begun?;
    if !begun.assigned && range.start != begun.behind {
      return None;
    }
    let (run, word) = (self.shown(begun.run), begun.word);
    Some(format!(
      "{run} is read as the statement {word}: no name begins with a reserved word"
    ))
  }

  /// Tells what has to stand here, and passes over the rest of the statement.
  fn fail(&mut self, wanted: &str) {
    self.fail_with(wanted, None);
  }

  fn fail_with(&mut self, wanted: &str, hint: Option<&str>) {
    self.wants(wanted, hint);
    self.failed = true;
  }

  /// Tells what has to stand here; reading goes on without it. Of a statement
  /// that is passed over nothing more is told.
  fn wants(&mut self, wanted: &str, hint: Option<&str>) {
    if self.failed {
      return;
    }
    self.blanks();
    let range = self.token();
    let first = self.units.get(self.at).copied().unwrap_or(0);
    match foreign(first) {
      Some((message, instead)) => {
        self.error(range, message, instead.as_deref());
      }
      None => self.error(range, format!("put {wanted} here"), hint),
    }
  }

  /// The token that stands here, to be marked; behind the last token if there
  /// is none.
  fn token(&self) -> Range {
    if self.at == self.units.len() {
      return Range { start: self.end, end: self.end };
    }
    let end = words::run_end(self.units, self.at).max(self.at + 1);
    Range { start: self.at, end }
  }

  // ------------------------------------------------------------ tokens

  /// The unit that stands here as a letter; NUL at the line's end.
  fn peek(&self) -> char {
    let unit = self.units.get(self.at).copied().unwrap_or(0);
    char::from_u32(unit as u32).unwrap_or('\0')
  }

  fn is_at_line_end(&self) -> bool {
    self.at == self.units.len()
  }

  fn blanks(&mut self) {
    let first = self.line == 0;
    let is_mark = |at, unit| first && at == 0 && unit == words::BYTE_ORDER_MARK;
    while let Some(&unit) = self.units.get(self.at)
      && (words::is_blank(unit) || is_mark(self.at, unit))
    {
      self.at += 1;
    }
  }

  /// Takes the units up to `end` as a token.
  fn take(&mut self, end: usize) -> Range {
    let range = Range { start: self.at, end };
    self.at = end;
    self.end = end;
    range
  }

  /// From `start` to the end of the last token.
  fn since(&self, start: usize) -> Range {
    Range { start, end: self.end.max(start) }
  }

  /// The empty range behind the last token.
  fn behind(&self) -> Range {
    Range { start: self.end, end: self.end }
  }

  fn text(&self, range: Range) -> String {
    range.text(self.units).to_ascii_uppercase()
  }

  /// The text of a range, for a message: in upper case, and a long one cut.
  fn shown(&self, range: Range) -> String {
    const MOST: usize = 40;
    let end = range.end.min(range.start + MOST);
    let cut = if end < range.end { ".." } else { "" };
    self.text(Range { end, ..range }) + cut
  }

  /// Takes a sign, if it stands here.
  fn takes(&mut self, sign: &str) -> Option<Range> {
    self.blanks();
    let fits = !self.failed && words::begins(&self.units[self.at..], sign);
    fits.then(|| self.take(self.at + sign.len()))
  }

  fn needs(&mut self, sign: &str) -> Option<Range> {
    let taken = self.takes(sign);
    if taken.is_none() {
      self.fail(sign);
    }
    taken
  }

  /// The longest reserved word that stands here.
  fn word(&mut self) -> Option<Word> {
    self.blanks();
    words::word_at(&self.units[self.at..])
  }

  fn stands(&mut self, word: &str) -> bool {
    self.word().is_some_and(|found| found.text == word)
  }

  /// Takes a reserved word, if it stands here.
  fn takes_word(&mut self, word: &'static str) -> Option<Range> {
    let stands = !self.failed && self.stands(word);
    stands.then(|| {
      self.warn_glued();
      self.take(self.at + word.len())
    })
  }

  /// Takes a reserved word that alone may stand here: also if the letters begin
  /// with a longer one, as `10ASC$` does with ASC.
  fn needs_word(&mut self, word: &'static str) -> Option<Range> {
    self.blanks();
    if self.failed || !words::begins(&self.units[self.at..], word) {
      self.fail(word);
      return None;
    }
    Some(self.take(self.at + word.len()))
  }

  /// Warns of a reserved word here that ended a name without a blank before,
  /// where the name might be meant to go on.
  fn warn_glued(&mut self) {
    let Some((start, at, word)) = self.glued.filter(|g| g.1 == self.at) else {
      return;
    };
    if ["THEN", "TO", "STEP", "GOTO", "GOSUB", "AS"].contains(&word.text) {
      return;
    }
    let end = words::run_end(self.units, at);
    let run = self.shown(Range { start, end });
    let name = self.shown(Range { start, end: at });
    let word = word.text;
    self.warning(
      Range { start, end },
      format!("{run} is read as {name} and the reserved word {word}"),
      Some(format!(
        "put a blank before {word}, or choose another name if one was meant"
      )),
    );
  }

  /// A label's digits, if some stand here.
  fn label(&mut self) -> Label {
    self.blanks();
    let digits = |unit: &&u16| words::is_digit(**unit);
    let count = self.units[self.at..].iter().take_while(digits).count();
    if count == 0 {
      return None;
    }
    let range = self.take(self.at + count);
    match self.text(range).parse() {
      Ok(label) if label <= GREATEST_LABEL => Some((range, label)),
      _ => {
        self.error(range, "label above 9,999", Some("choose a smaller label"));
        None
      }
    }
  }

  /// A name, if one stands here.
  fn takes_name(&mut self) -> Option<Range> {
    self.blanks();
    let begins = words::is_letter(self.units.get(self.at).copied()?);
    if self.failed || !begins || self.word().is_some() {
      return None;
    }
    let start = self.at;
    let (end, word) = words::name_end(self.units, start);
    if let Some(word) = word {
      self.glued = Some((start, end, word));
    }
    Some(self.take(end))
  }

  /// A name, or None and an error.
  fn name(&mut self, wanted: &str) -> Option<Range> {
    let name = self.takes_name();
    if name.is_none() {
      self.wants_name(wanted);
    }
    name
  }

  /// Tells that a name has to stand here, and why what stands here is none.
  fn wants_name(&mut self, wanted: &str) {
    let hint = self.no_name_hint();
    self.wants(wanted, hint.as_deref());
  }

  /// Where letters stand here that begin with a reserved word.
  fn no_name_hint(&mut self) -> Option<String> {
    let word = self.word()?.text;
    let token = self.token();
    let run = self.shown(token);
    (token.end - token.start > word.len()).then(|| {
      format!(
        "no name begins with the reserved word {word}: choose another name than {run}"
      )
    })
  }

  // ------------------------------------------------------------ recovery

  /// Whether a statement may end here: at the line's end, a colon, or ELSE.
  fn ends(&mut self) -> bool {
    self.blanks();
    self.is_at_line_end() || self.peek() == ':' || self.stands("ELSE")
  }

  /// One part in another.
  fn deeper<T>(
    &mut self,
    without: impl FnOnce(&Self) -> T,
    read: impl FnOnce(&mut Self) -> T,
  ) -> T {
    if self.depth == DEEPEST {
      self.too_deep();
      return without(self);
    }
    self.depth += 1;
    let part = read(self);
    self.depth -= 1;
    part
  }

  fn too_deep(&mut self) {
    let hint = "take it apart with variables or more lines";
    let range = self.token();
    if !self.failed && !self.deep {
      self.error(range, TOO_DEEP, Some(hint));
    }
    self.failed = true;
    self.deep = true;
  }
}

/// Replaces the letters outside the first 65,536; gives their places.
fn replace_halves(units: &mut [u16]) -> Vec<usize> {
  let mut places = vec![];
  for (at, unit) in units.iter_mut().enumerate() {
    if let 0xd800..=0xdfff = *unit {
      if *unit < 0xdc00 {
        places.push(at);
      }
      *unit = REPLACED;
    }
  }
  places
}

/// The length without LF or CR LF.
fn body_len(units: &[u16]) -> usize {
  const CR: u16 = b'\r' as u16;
  const LF: u16 = b'\n' as u16;
  match units {
    [.., CR, LF] => units.len() - 2,
    [.., LF] => units.len() - 1,
    _ => units.len(),
  }
}

/// What to say of a unit that no statement takes outside texts, data and
/// remarks.
fn foreign(unit: u16) -> Option<(String, Option<String>)> {
  let letter = char::from_u32(unit as u32).unwrap_or('\u{fffd}');
  match unit {
    0 => None,
    words::BYTE_ORDER_MARK => {
      let message = "byte order mark inside the text".to_string();
      Some((message, Some("take it out; it has no shape".to_string())))
    }
    1..0x20 | 0x7f => {
      let message = format!("control letter {unit} outside a text");
      Some((message, Some("take it out".to_string())))
    }
    0x20..0x7f => None,
    _ => {
      let message = format!("{letter} stands outside a text");
      let hint = match plain(letter) {
        Some(' ') => "write a blank in its place".to_string(),
        Some(plain) => format!("write {plain} in its place"),
        None => "put it in quotes if it is meant as a text, or take it out"
          .to_string(),
      };
      Some((message, Some(hint)))
    }
  }
}

/// The ASCII letter that a letter of a wide keyboard looks like.
fn plain(letter: char) -> Option<char> {
  match letter {
    '\u{ff01}'..='\u{ff5e}' => char::from_u32(letter as u32 - 0xfee0),
    '“' | '”' | '„' | '«' | '»' => Some('"'),
    '、' => Some(','),
    '。' => Some('.'),
    '−' | '–' | '—' => Some('-'),
    '×' => Some('*'),
    '÷' => Some('/'),
    '\u{3000}' | '\u{a0}' => Some(' '),
    _ => None,
  }
}
