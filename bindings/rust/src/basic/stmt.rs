//! Lines and statements.

use super::words::{
  self, is_blank, is_letter, is_remark, is_sigil, past_spaces, trailing_blanks,
};
use super::{Begun, Reader};
use crate::spelling::{MODES, REMARKS, WORDS_ALONE};
use crate::tree::*;

/// Said of the sign that other dialects have for it.
const REMARK: &str = "REM begins a remark";

/// What has to stand behind a statement.
const ITS_END: &str = "a colon or the line's end";

impl Reader<'_> {
  pub(super) fn line(&mut self) -> (Label, Vec<Stmt>) {
    let label = self.label();
    (label, self.stmts())
  }

  /// Statements up to the ELSE of an IF around, or the line's end.
  fn stmts(&mut self) -> Vec<Stmt> {
    let mut stmts = vec![];
    loop {
      self.blanks();
      if self.is_at_line_end() {
        return stmts;
      }
      if self.stands("ELSE") {
        if self.branches > 0 {
          return stmts;
        }
        self.stray_else();
        continue;
      }
      if self.peek() == ':' {
        let range = self.take(self.at + 1);
        stmts.push(Stmt { range, kind: StmtKind::NoOp });
        continue;
      }
      stmts.push(self.stmt());
      self.takes_colon();
    }
  }

  /// An ELSE without its IF is told, and what stands behind it is read.
  fn stray_else(&mut self) {
    if self.lost_if {
      // It belongs to an IF whose THEN was not found, which was told.
      self.take(self.at + "ELSE".len());
      self.label();
      return;
    }
    let behind = &self.units[self.at + "ELSE".len()..];
    let is_name = words::statement_at(behind).is_none();
    let hint = self
      .no_name_hint()
      .filter(|_| is_name)
      .unwrap_or("put the IF it belongs to on the same line".to_string());
    self.error(self.token(), "ELSE without IF", Some(&hint));
    self.take(self.at + "ELSE".len());
    // As in a branch, a label may stand here.
    self.label();
  }

  /// A colon between statements belongs to none of them.
  fn takes_colon(&mut self) -> bool {
    self.blanks();
    let is_colon = self.peek() == ':';
    if is_colon {
      self.at += 1;
    }
    is_colon
  }

  fn stmt(&mut self) -> Stmt {
    self.failed = false;
    self.begun = None;
    self.near = None;
    let start = self.at;
    let kind = self.stmt_kind();
    let range = self.since(start);
    self.stmt_end();
    Stmt { range, kind }
  }

  /// Where a statement does not end here, that is told and the rest of it is
  /// passed over.
  fn stmt_end(&mut self) {
    if !self.ends() {
      self.wants_end();
      self.pass_over();
    }
    self.failed = false;
  }

  fn wants_end(&mut self) {
    let hint = match self.peek() {
      '\'' => Some(REMARK.to_string()),
      _ => self.no_name_hint().or(self.near.map(did_you_mean)),
    };
    self.wants(ITS_END, hint.as_deref());
  }

  /// Goes on to the next colon outside quotes, the ELSE of an IF around, or the
  /// line's end.
  fn pass_over(&mut self) {
    self.pass_to(|reader| reader.branches > 0 && reader.stands("ELSE"));
  }

  /// The same, or to where `found` says.
  fn pass_to(&mut self, found: impl Fn(&mut Self) -> bool) {
    let mut after_letter = false;
    while !self.is_at_line_end() && self.peek() != ':' {
      if !after_letter && self.peek().is_ascii_alphabetic() && found(self) {
        return;
      }
      after_letter = is_letter(self.units[self.at]);
      self.at = self.behind_text(self.at);
    }
  }

  /// The place behind a unit, or behind the text in quotes that begins there.
  fn behind_text(&self, at: usize) -> usize {
    let quote = b'"' as u16;
    if self.units[at] != quote {
      return at + 1;
    }
    let inside = &self.units[at + 1..];
    match inside.iter().position(|&unit| unit == quote) {
      Some(count) => at + count + 2,
      None => self.units.len(),
    }
  }

  // ------------------------------------------------------------ the choice

  fn stmt_kind(&mut self) -> StmtKind {
    if self.takes("?").is_some() {
      return StmtKind::Print(self.elements());
    }
    match words::statement_at(&self.units[self.at..]) {
      Some(word) => {
        self.note_glued(word);
        self.warn_of_assignment(word);
        self.take(self.at + word.len());
        self.stmt_of(word)
      }
      None => self.assignment(),
    }
  }

  fn stmt_of(&mut self, word: &str) -> StmtKind {
    if let Some((_, kind)) = WORDS_ALONE.iter().find(|row| row.0 == word) {
      return kind.clone();
    }
    if let Some((_, kind)) = REMARKS.iter().find(|row| row.0 == word) {
      return kind(self.remark(word));
    }
    match word {
      "RUN" => StmtKind::Run(self.rest()),
      "BOX" => StmtKind::Box(self.exprs()),
      "CIRCLE" => StmtKind::Circle(self.exprs()),
      "DRAW" => StmtKind::Draw(self.exprs()),
      "ELLIPSE" => StmtKind::Ellipse(self.exprs()),
      "LINE" => StmtKind::Line(self.exprs()),
      "LOAD" => StmtKind::Load(self.exprs()),
      "PAINT" => StmtKind::Paint(self.exprs()),
      "DIM" => StmtKind::Dim(self.places()),
      "READ" => StmtKind::Read(self.places()),
      "CALL" => StmtKind::Call(self.expr()),
      "PLAY" => StmtKind::Play(self.expr()),
      "SLEEP" => StmtKind::Sleep(self.expr()),
      "WHILE" => StmtKind::While(self.expr()),
      "CLOSE" => StmtKind::Close(self.file()),
      "DEBUGPRINT" => StmtKind::DebugPrint(self.file()),
      "GOSUB" => StmtKind::GoSub(self.target()),
      "GOTO" => StmtKind::GoTo { keyword: true, label: self.target() },
      "RESTORE" => StmtKind::Restore(self.target()),
      "PRINT" => StmtKind::Print(self.elements()),
      "DATA" => StmtKind::Data(self.data()),
      "DEF" => self.def(),
      "FIELD" => self.field(),
      "FOR" => self.for_(),
      "IF" => self.if_(),
      "INPUT" => self.input(),
      "LET" => self.let_(),
      "LOCATE" => self.locate(),
      "NEXT" => StmtKind::Next(self.counters()),
      "ON" => self.on(),
      "OPEN" => self.open(),
      "WRITE" => self.write(),
      "LSET" => {
        let (var, value) = self.place_and_value();
        StmtKind::LSet { var, value }
      }
      "RSET" => {
        let (var, value) = self.place_and_value();
        StmtKind::RSet { var, value }
      }
      "SWAP" => {
        let left = self.place();
        self.needs(",");
        StmtKind::Swap { left, right: self.place() }
      }
      "POKE" => {
        let addr = self.expr();
        StmtKind::Poke { addr, value: self.next_expr() }
      }
      "GET" => {
        let filenum = self.file();
        StmtKind::Get { filenum, record: self.next_expr() }
      }
      "PUT" => {
        let filenum = self.file();
        StmtKind::Put { filenum, record: self.next_expr() }
      }
      "FPUTC" => {
        let filenum = self.file();
        StmtKind::Fputc { filenum, value: self.next_expr() }
      }
      "FSEEK" => {
        let filenum = self.file();
        StmtKind::Fseek { filenum, offset: self.next_expr() }
      }
      "FREAD" => {
        let (filenum, addr) = (self.file(), self.next_expr());
        StmtKind::Fread { filenum, addr, size: self.next_expr() }
      }
      "FWRITE" => {
        let (filenum, addr) = (self.file(), self.next_expr());
        StmtKind::Fwrite { filenum, addr, size: self.next_expr() }
      }
      _ => unreachable!("each word of the table is one of these"),
    }
  }

  /// Keeps a statement's word with letters directly behind it, for hints.
  fn note_glued(&mut self, word: &'static str) {
    let behind = self.at + word.len();
    let end = words::run_end(self.units, behind);
    if end > behind {
      let run = Range { start: self.at, end };
      let assigned = self.assigned(end);
      self.begun = Some(Begun { run, word, behind, assigned });
    }
  }

  /// Whether what stands behind a name at `at` makes it look like one that is
  /// assigned: an equals sign, or subscripts and an equals sign.
  fn assigned(&self, at: usize) -> bool {
    let has_sigil = self.units.get(at).is_some_and(|&unit| is_sigil(unit));
    let at = past_spaces(self.units, at + has_sigil as usize);
    let at = past_spaces(self.units, self.behind_subscripts(at));
    self.units.get(at) == Some(&(b'=' as u16))
  }

  /// The place behind the parenthesis that closes the one at `at`; `at` if none
  /// stands there, the line's end if it is not closed.
  fn behind_subscripts(&self, at: usize) -> usize {
    const OPEN: u16 = b'(' as u16;
    const CLOSE: u16 = b')' as u16;
    let mut depth = 0;
    for (place, unit) in self.units.iter().enumerate().skip(at) {
      match *unit {
        OPEN => depth += 1,
        CLOSE => depth -= 1,
        _ if depth == 0 => return place,
        _ => {}
      }
    }
    self.units.len()
  }

  /// Warns of a statement's word that looks like a variable's name or its
  /// begin: `PRINTER=1` prints whether ER is 1, `NEW=1` is a remark.
  fn warn_of_assignment(&mut self, word: &str) {
    const ASSIGN: [&str; 7] =
      ["FOR", "LSET", "RSET", "IF", "WHILE", "ON", "DEF"];
    let behind = self.at + word.len();
    let end = words::run_end(self.units, behind);
    let hides = is_remark(word) && word != "REM";
    let takes_any = hides || word == "RUN" || word == "DATA";
    let is_glued = self.units.get(behind).is_some_and(|&unit| is_letter(unit));
    let is_short_let = word == "LET" && end < behind + 2;
    let is_name = match word {
      _ if ASSIGN.contains(&word) || is_short_let => false,
      _ => (is_glued || takes_any) && self.assigned(end),
    };
    if !(is_name || (is_glued && hides)) {
      return;
    }
    let range = Range { start: self.at, end };
    let run = self.shown(range);
    self.warning(
      range,
      format!("{run} is read as the statement {word}"),
      Some(format!(
        "put a blank behind {word}, or choose another name if one was meant"
      )),
    );
  }

  // ------------------------------------------------------------ parts

  /// What stands behind a remark's word, to the line's end.
  fn remark(&mut self, word: &str) -> Range {
    let range = Range { start: self.at, end: self.units.len() };
    let text = &self.units[range.start..];
    let holds_more = text.contains(&(b':' as u16))
      || (self.branches > 0 && words::holds_else(text));
    if word != "REM" && holds_more {
      self.warning(
        Range { start: range.start - word.len(), end: range.start },
        format!("{word} is a remark to the line's end, as REM is"),
        Some("put what is no remark on a line of its own".into()),
      );
    }
    self.at = range.end;
    self.end = range.end - trailing_blanks(text);
    range
  }

  /// What stands behind RUN, to the statement's end.
  fn rest(&mut self) -> Range {
    let start = self.at;
    self.pass_to(|reader| reader.stands("ELSE"));
    let rest = &self.units[start..self.at];
    self.end = self.at - trailing_blanks(rest);
    Range { start, end: self.end }
  }

  /// A file's number, with or without #.
  fn file(&mut self) -> Expr {
    self.takes("#");
    self.expr()
  }

  fn next_expr(&mut self) -> Expr {
    self.needs(",");
    self.expr()
  }

  /// A label that is jumped to; without one it is 0.
  fn target(&mut self) -> Label {
    if self.ends() || self.failed {
      return None;
    }
    let at = self.at;
    let label = self.label();
    if self.at == at {
      self.fail_with("a line's label", Some("labels are numbers up to 9,999"));
    }
    label
  }

  fn place_and_value(&mut self) -> (Expr, Expr) {
    let place = self.place();
    self.needs("=");
    (place, self.expr())
  }

  fn let_(&mut self) -> StmtKind {
    let (var, value) = self.place_and_value();
    StmtKind::Let { var, value }
  }

  /// A statement without a word: LET is left out, or nothing is known of it.
  fn assignment(&mut self) -> StmtKind {
    if self.units.get(self.at).is_none_or(|&unit| !is_letter(unit)) {
      let hint = (self.peek() == '\'').then_some(REMARK);
      self.fail_with("a statement", hint);
      return StmtKind::NoOp;
    }
    if let Some(word) = self.word() {
      return self.no_statement(word.text);
    }
    let start = self.at;
    let run = Range { start, end: words::run_end(self.units, start) };
    let var = self.place();
    if self.takes("=").is_none() {
      return self.unknown_statement(run, var);
    }
    let value = self.expr();
    if !self.ends() {
      self.near = words::nearest(&self.text(run));
    }
    StmtKind::Let { var, value }
  }

  /// A reserved word that begins no statement.
  fn no_statement(&mut self, word: &str) -> StmtKind {
    let hint = match word {
      "FN" if !self.assigned(self.token().end) || self.is_called() => {
        Some("did you mean DEF FN?".to_string())
      }
      _ => self.no_name_hint(),
    };
    let range = self.token();
    if !self.failed {
      let message = format!("no statement begins with {word}");
      self.error(range, message, hint.as_deref());
    }
    self.failed = true;
    StmtKind::NoOp
  }

  /// Whether the letters here have a parenthesis behind them.
  fn is_called(&self) -> bool {
    self.units.get(self.token().end) == Some(&(b'(' as u16))
  }

  /// A name, and no equals sign behind it.
  fn unknown_statement(&mut self, run: Range, var: Expr) -> StmtKind {
    let name = self.text(run);
    let near = match (name.as_str(), self.text(var.range).as_str()) {
      ("GO", _) if self.stands("TO") => Some("GOTO"),
      ("GO", whole) if whole.starts_with("GO SUB") => Some("GOSUB"),
      _ => words::nearest(&name),
    };
    match near {
      Some(word) if !self.failed => {
        let hint = did_you_mean(word);
        self.error(run, format!("{name} is no statement"), Some(&hint));
        self.failed = true;
      }
      _ => {
        let name = self.shown(var.range);
        let hint = format!("{name} is read as a variable that is assigned");
        self.fail_with("=", Some(&hint));
      }
    }
    StmtKind::Let { var, value: self.missing() }
  }

  fn data(&mut self) -> Vec<Datum> {
    let mut data = vec![];
    loop {
      data.push(self.datum());
      if self.takes(",").is_none() {
        return data;
      }
    }
  }

  fn datum(&mut self) -> Datum {
    let behind = self.behind();
    self.blanks();
    if self.peek() == '"' {
      return Datum { range: self.quoted(), quoted: true };
    }
    let start = self.at;
    let mut end = start;
    while !self.is_at_line_end() && !matches!(self.peek(), ',' | ':') {
      self.at += 1;
      if !is_blank(self.units[self.at - 1]) {
        end = self.at;
      }
    }
    if end == start {
      return Datum { range: behind, quoted: false };
    }
    self.end = end;
    let range = Range { start, end };
    self.warn_of_else(range);
    Datum { range, quoted: false }
  }

  /// In a branch an ELSE behind DATA is part of the datum.
  fn warn_of_else(&mut self, datum: Range) {
    let text = &self.units[datum.start..datum.end];
    if self.branches > 0 && words::holds_else(text) {
      let hint = "put a colon before it if it belongs to the IF";
      let message = "ELSE is part of the datum";
      self.warning(datum, message, Some(hint.to_string()));
    }
  }

  fn def(&mut self) -> StmtKind {
    self.needs_word("FN");
    let name = self.name("a function's name");
    self.needs("(");
    let param = self.name("a parameter's name");
    self.needs(")");
    self.needs("=");
    StmtKind::Def { name, param, body: self.expr() }
  }

  fn field(&mut self) -> StmtKind {
    let filenum = self.file();
    let mut fields = vec![];
    loop {
      let len = self.next_expr();
      self.needs_word("AS");
      fields.push(Field { len, var: self.place() });
      if self.failed || self.ends() {
        return StmtKind::Field { filenum, fields };
      }
    }
  }

  fn for_(&mut self) -> StmtKind {
    let var = self.name("a counter's name");
    self.needs("=");
    let start = self.expr();
    self.needs_word("TO");
    let end = self.expr();
    let step = self.takes_word("STEP").map(|_| self.expr());
    StmtKind::For { var, start, end, step }
  }

  fn counters(&mut self) -> Vec<Option<Range>> {
    let mut vars = vec![];
    if self.ends() {
      return vars;
    }
    loop {
      vars.push(self.name("a counter's name"));
      if self.takes(",").is_none() {
        return vars;
      }
    }
  }

  fn input(&mut self) -> StmtKind {
    self.blanks();
    let source = if self.takes("#").is_some() {
      let filenum = self.expr();
      self.needs(",");
      InputSource::File(filenum)
    } else if self.peek() == '"' {
      let prompt = self.quoted();
      self.needs(";");
      InputSource::Prompt(prompt)
    } else {
      InputSource::Keyboard
    };
    let mut vars = vec![self.input_place()];
    while self.takes(",").is_some() {
      vars.push(self.input_place());
    }
    StmtKind::Input { source, vars }
  }

  fn input_place(&mut self) -> Expr {
    if !self.failed && self.stands("FN") {
      return self.deeper(Self::missing, Self::user_func_call);
    }
    self.place()
  }

  fn locate(&mut self) -> StmtKind {
    let row = self.value_begins().then(|| self.expr());
    let column = self.takes(",").map(|_| self.expr());
    if row.is_none() && column.is_none() {
      self.wants("a row, or a comma and a column,", None);
    }
    StmtKind::Locate { row, column }
  }

  fn on(&mut self) -> StmtKind {
    let cond = self.expr();
    let is_sub = self.takes_word("GOSUB").is_some();
    if !is_sub && self.takes_word("GOTO").is_none() {
      self.fail("GOTO or GOSUB");
    }
    let mut labels = vec![];
    loop {
      labels.push(self.on_label());
      if self.takes(",").is_none() {
        return StmtKind::On { cond, labels, is_sub };
      }
    }
  }

  fn on_label(&mut self) -> (Range, Option<u16>) {
    let behind = self.behind();
    if self.failed || self.ends() || self.peek() == ',' {
      return (behind, None);
    }
    match self.target() {
      Some((range, label)) => (range, Some(label)),
      None => (behind, None),
    }
  }

  fn open(&mut self) -> StmtKind {
    let filename = self.expr();
    self.needs_word("FOR");
    let mode = self.mode();
    self.needs_word("AS");
    let filenum = self.file();
    self.warn_of_len(&filenum);
    let len = self.takes_word("LEN").map(|range| {
      self.needs("=");
      (range, self.expr())
    });
    StmtKind::Open { filename, mode, filenum, len }
  }

  /// Warns of `AS #FLEN=32`, which compares.
  fn warn_of_len(&mut self, filenum: &Expr) {
    let ExprKind::Binary { lhs, op: (_, BinaryOp::Eq), .. } = &filenum.kind
    else {
      return;
    };
    let name = self.text(lhs.range);
    if lhs.kind == ExprKind::Ident && name.ends_with("LEN") {
      let hint = "put a blank before LEN if it is meant";
      let message = "the number of the file is a comparison";
      self.warning(filenum.range, message, Some(hint.to_string()));
    }
  }

  fn mode(&mut self) -> FileMode {
    self.blanks();
    let here = &self.units[self.at..];
    let known = MODES[1..].iter().find(|(text, _)| words::begins(here, text));
    match known {
      Some(&(text, mode)) if !self.failed => {
        self.take(self.at + text.len());
        mode
      }
      _ => {
        self.wants("INPUT, OUTPUT, APPEND, RANDOM or BINARY", None);
        FileMode::Error
      }
    }
  }

  fn elements(&mut self) -> Vec<PrintElement> {
    let mut elements = vec![];
    loop {
      if let Some(range) = self.takes(",") {
        elements.push(PrintElement::Comma(range));
      } else if let Some(range) = self.takes(";") {
        elements.push(PrintElement::Semicolon(range));
      } else if !self.failed && self.value_begins() {
        elements.push(PrintElement::Expr(self.expr()));
      } else {
        self.no_element();
        return elements;
      }
    }
  }

  /// What ends the elements of a PRINT is its end; else that is told.
  fn no_element(&mut self) {
    if self.ends() {
      return;
    }
    let hint = match self.peek() {
      '#' => Some("WRITE # writes to a file".to_string()),
      '\'' => Some(REMARK.to_string()),
      _ => self.no_name_hint(),
    };
    self.fail_with("a value, a comma or a semicolon", hint.as_deref());
  }

  fn write(&mut self) -> StmtKind {
    let filenum = self.takes("#").map(|_| {
      let filenum = self.expr();
      self.needs(",");
      filenum
    });
    let mut data = vec![];
    loop {
      let datum = self.expr();
      let comma = self.takes(",").is_some();
      data.push(WriteElement { datum, comma });
      let goes_on = self.value_begins() || self.peek() == ',';
      if self.failed || !goes_on {
        return StmtKind::Write { filenum, data };
      }
    }
  }

  // ------------------------------------------------------------ IF

  fn if_(&mut self) -> StmtKind {
    let cond = self.expr();
    let conseq = self.conseq();
    let alt = self.takes_word("ELSE").map(|_| self.branch());
    StmtKind::If { cond, conseq, alt }
  }

  /// THEN and its branch, or a branch that begins with GOTO.
  fn conseq(&mut self) -> Vec<Stmt> {
    let goes = !self.failed && self.stands("GOTO");
    if goes || self.takes_word("THEN").is_some() {
      return self.branch();
    }
    self.wants("THEN or GOTO", None);
    let here = &self.units[self.at..];
    if !self.failed && words::statement_at(here).is_some() {
      return self.branch();
    }
    self.conseq_found()
  }

  /// The branch behind a condition that could not be read, if its word is
  /// found.
  fn conseq_found(&mut self) -> Vec<Stmt> {
    let words = ["THEN", "GOTO", "ELSE"];
    let any = |reader: &mut Self| words.iter().any(|word| reader.stands(word));
    self.pass_to(any);
    self.failed = !any(self);
    self.lost_if |= self.failed;
    if self.failed || self.stands("ELSE") { vec![] } else { self.conseq() }
  }

  /// Statements, the first of which may be a label alone.
  fn branch(&mut self) -> Vec<Stmt> {
    self.branches += 1;
    let stmts = self.deeper(|_| vec![], Self::branch_stmts);
    self.branches -= 1;
    if self.failed {
      // It was too deep: nothing more of the line is read.
      self.at = self.units.len();
    }
    stmts
  }

  fn branch_stmts(&mut self) -> Vec<Stmt> {
    self.blanks();
    let mut stmts = vec![];
    if self.peek().is_ascii_digit() {
      let start = self.at;
      let kind = StmtKind::GoTo { keyword: false, label: self.label() };
      stmts.push(Stmt { range: self.since(start), kind });
      self.stmt_end();
      if !self.takes_colon() {
        return stmts;
      }
    }
    stmts.extend(self.stmts());
    stmts
  }
}

fn did_you_mean(word: &str) -> String {
  format!("did you mean {word}?")
}
