//! What no text says is made sayable, in this one place:
//!
//! - What stands behind an IF or a remark of a line goes to a line of its own;
//!   behind an IF in a branch it joins that IF's last branch. A remark that
//!   something else follows in a branch becomes a lone colon. An IF before an
//!   ELSE that is not its own gets an empty ELSE.
//! - A GOTO has its word but where its label stands directly behind THEN or
//!   ELSE. Labels above 9,999 lose their ten thousands.
//! - A name that the dialect reads otherwise is spelled anew; so is one that is
//!   missing before subscripts. What is no place where one has to stand becomes
//!   a variable. NEXT of a single missing name has none.
//! - Strings, prompts and quoted data get the quotes that they lack, and lose
//!   those inside. Data without quotes lose commas, colons, a first quote and
//!   outer blanks. No text holds a line's end or half a letter.
//! - A number whose text does not say its value is written anew.
//! - A missing value that would change how the signs around it are read is a
//!   zero; one of PRINT is left out. Two values of PRINT or WRITE that would
//!   be read as one are parted, by a semicolon or a comma.
//! - A list that needs something has something missing.
//! - A range goes no further than its line.
//!
//! All else stays, also what is missing.

use super::words;
use super::{TIGHTEST, needs_parentheses};
use crate::basic::GREATEST_LABEL;
use crate::spelling::binding;
use crate::tree::*;
use crate::walk::{Use, Visitor};

/// A tree that a text can say, near to the given one, and the units that its
/// ranges cite. Of a tree that was read without an error it says the same.
pub fn normal(program: &Program, units: &[u16]) -> (Program, Vec<u16>) {
  let mut made = Program::default();
  let mut all = vec![];
  for (line, source) in program.lines_of(units) {
    let mut line = line.clone();
    line.visit(&mut Within(source.len()));
    while let Some(next) = one_line(&mut line) {
      finish(line, source, &mut made, &mut all);
      line = next;
    }
    finish(line, source, &mut made, &mut all);
  }
  (made, all)
}

/// Cuts what lies behind a line off the ranges in it.
struct Within(usize);

impl Visitor for Within {
  fn range(&mut self, range: &mut Range, _: Use) {
    *range = range.within(self.0);
  }
}

/// Leaves what one line can say, and gives the rest as another line.
fn one_line(line: &mut Line) -> Option<Line> {
  let to_the_end =
    |stmt: &Stmt| matches!(stmt.kind, StmtKind::If { .. } | remark!(_));
  let end = line.stmts.iter().position(to_the_end)? + 1;
  let stmts = line.stmts.split_off(end);
  let more = !stmts.is_empty();
  more.then_some(Line { len: line.len, label: None, stmts })
}

fn finish(
  mut line: Line,
  source: &[u16],
  made: &mut Program,
  all: &mut Vec<u16>,
) {
  let mut normal = Normal { units: source.to_vec() };
  normal.label(&mut line.label);
  normal.stmts(&mut line.stmts, Follows::End, false);
  line.len = normal.units.len();
  all.extend(normal.units);
  made.lines.push(line);
}

/// What stands behind a list of statements.
#[derive(Clone, Copy, PartialEq, Eq)]
enum Follows {
  End,
  Else,
}

/// The line's units, and behind them those of what is written anew.
struct Normal {
  units: Vec<u16>,
}

const BLANK: u16 = b' ' as u16;
const QUOTE: u16 = b'"' as u16;
const TICK: u16 = b'\'' as u16;
const COMMA: u16 = b',' as u16;
const COLON: u16 = b':' as u16;

impl Normal {
  fn text(&self, range: &Range) -> &[u16] {
    range.units(&self.units)
  }

  /// The range of a text: as it was where the text is.
  fn put(&mut self, range: &mut Range, text: Vec<u16>) {
    if self.text(range) != text {
      range.start = self.units.len();
      self.units.extend(text);
      range.end = self.units.len();
    } else if range.start >= range.end {
      *range = Range::default();
    }
  }

  fn anew(&mut self, text: &str) -> Range {
    let start = self.units.len();
    self.units.extend(text.encode_utf16());
    Range { start, end: self.units.len() }
  }

  // ---------------------------------------------------------- statements

  fn stmts(&mut self, stmts: &mut Vec<Stmt>, follows: Follows, branch: bool) {
    if branch {
      join_behind_if(stmts);
    }
    let count = stmts.len();
    for (at, stmt) in stmts.iter_mut().enumerate() {
      let last = at + 1 == count && follows == Follows::End;
      if matches!(stmt.kind, remark!(_)) && !last {
        stmt.kind = StmtKind::NoOp;
      }
      if let StmtKind::GoTo { keyword, label } = &mut stmt.kind
        && (at > 0 || !branch || label.is_none())
      {
        *keyword = true;
      }
      if let StmtKind::Run(range) = &mut stmt.kind {
        self.run(range, last);
      }
      let follows = if last { Follows::End } else { Follows::Else };
      self.stmt(&mut stmt.kind, follows);
    }
  }

  fn stmt(&mut self, kind: &mut StmtKind, follows: Follows) {
    use StmtKind::*;
    match kind {
      word_alone!() | Run(_) | NoOp => {}
      remark!(text) => self.remark(text),
      Box(args) | Circle(args) | Draw(args) | Ellipse(args) | Line(args)
      | Load(args) | Paint(args) => self.exprs(args),
      Dim(vars) | Read(vars) => self.places(vars),
      Call(arg) | Close(arg) | Play(arg) | While(arg) | Sleep(arg)
      | DebugPrint(arg) => self.expr(arg),
      Let { var, value } | LSet { var, value } | RSet { var, value } => {
        self.place(var);
        self.expr(value);
      }
      Swap { left, right } => {
        self.place(left);
        self.place(right);
      }
      Get { filenum: a, record: b }
      | Put { filenum: a, record: b }
      | Poke { addr: a, value: b }
      | Fputc { filenum: a, value: b }
      | Fseek { filenum: a, offset: b } => {
        self.expr(a);
        self.expr(b);
      }
      Fread { filenum, addr, size } | Fwrite { filenum, addr, size } => {
        self.expr(filenum);
        self.expr(addr);
        self.expr(size);
      }
      GoSub(label) | Restore(label) | GoTo { label, .. } => self.label(label),
      Data(data) => self.data(data),
      Def { name, param, body } => {
        self.name_option(name, true);
        self.name_option(param, false);
        self.expr(body);
      }
      Field { filenum, fields } => self.field(filenum, fields),
      For { var, start, end, step } => {
        self.name_option(var, false);
        self.expr(start);
        self.expr(end);
        step.iter_mut().for_each(|step| self.expr(step));
      }
      If { cond, conseq, alt } => self.if_(cond, conseq, alt, follows),
      Input { source, vars } => self.input(source, vars),
      Locate { row, column } => self.locate(row, column),
      Next(vars) => {
        if vars[..] == [None] {
          vars.clear();
        }
        vars.iter_mut().for_each(|var| self.name_option(var, false));
      }
      On { cond, labels, .. } => {
        self.expr(cond);
        let labels_mut = labels.iter_mut();
        labels_mut.flat_map(|(_, label)| label).for_each(sayable_label);
        at_least_one(labels, || (Range::default(), None));
      }
      Open { filename, filenum, len, .. } => {
        self.expr(filename);
        self.expr(filenum);
        if let Some((_, len)) = len {
          // LEN would be read as a function.
          self.fill_end(filenum);
          self.expr(len);
        }
      }
      Print(elements) => self.print(elements),
      Write { filenum, data } => self.write(filenum, data),
    }
  }

  fn label(&mut self, label: &mut Label) {
    label.iter_mut().for_each(|(_, label)| sayable_label(label));
  }

  /// To the line's end.
  fn remark(&mut self, range: &mut Range) {
    let text = whole_letters(self.text(range));
    self.put(range, text);
  }

  /// To a colon or ELSE outside quotes.
  fn run(&mut self, range: &mut Range, last: bool) {
    let mut text = whole_letters(self.text(range));
    let mut quoted = false;
    for at in 0..text.len() {
      quoted ^= text[at] == QUOTE;
      let word_begins = at == 0 || !words::is_letter(text[at - 1]);
      let is_else = word_begins && words::reserved(&text[at..]) == Some("ELSE");
      if !quoted && (text[at] == COLON || is_else) {
        text.truncate(at);
        break;
      }
    }
    if quoted && !last {
      // What follows would stand inside the quotes.
      text.push(QUOTE);
    }
    trim_end(&mut text);
    self.put(range, text);
  }

  fn data(&mut self, data: &mut Vec<Datum>) {
    for datum in data.iter_mut() {
      if datum.quoted {
        self.quoted(&mut datum.range);
      } else {
        self.unquoted(&mut datum.range);
      }
    }
    at_least_one(data, || Datum { range: Range::default(), quoted: false });
  }

  fn field(&mut self, filenum: &mut Expr, fields: &mut Vec<Field>) {
    self.expr(filenum);
    let nothing = || Field { len: missing(), var: missing() };
    at_least_one(fields, nothing);
    for field in fields {
      self.expr(&mut field.len);
      self.place(&mut field.var);
    }
  }

  fn if_(
    &mut self,
    cond: &mut Expr,
    conseq: &mut Vec<Stmt>,
    alt: &mut Option<Vec<Stmt>>,
    follows: Follows,
  ) {
    self.expr(cond);
    if follows == Follows::Else {
      alt.get_or_insert_default();
    }
    let behind = if alt.is_some() { Follows::Else } else { follows };
    self.stmts(conseq, behind, true);
    if let Some(alt) = alt {
      self.stmts(alt, follows, true);
    }
  }

  fn input(&mut self, source: &mut InputSource, vars: &mut Vec<Expr>) {
    match source {
      InputSource::Keyboard => {}
      InputSource::Prompt(prompt) => self.quoted(prompt),
      InputSource::File(filenum) => self.expr(filenum),
    }
    at_least_one(vars, missing);
    for var in vars {
      match &mut var.kind {
        ExprKind::UserFuncCall { .. } => self.expr(var),
        _ => self.place(var),
      }
    }
  }

  /// A missing row is none; without a column there is one.
  fn locate(&mut self, row: &mut Option<Expr>, column: &mut Option<Expr>) {
    row.take_if(|row| row.kind == ExprKind::Error);
    if row.is_none() && column.is_none() {
      *row = Some(self.zero());
    }
    if let Some(row) = row {
      self.expr(row);
      self.fill_begin(row);
    }
    column.iter_mut().for_each(|column| self.expr(column));
  }

  fn print(&mut self, elements: &mut Vec<PrintElement>) {
    let mut parted: Vec<PrintElement> = vec![];
    for mut element in elements.drain(..) {
      if let PrintElement::Expr(expr) = &mut element {
        if expr.kind == ExprKind::Error {
          continue;
        }
        self.expr(expr);
        self.fill_begin(expr);
        if let Some(PrintElement::Expr(before)) = parted.last()
          && !apart(before, expr)
        {
          parted.push(PrintElement::Semicolon(Range::default()));
        }
      }
      parted.push(element);
    }
    *elements = parted;
  }

  /// A missing datum is told by the comma behind it, or by being the only one.
  fn write(
    &mut self,
    filenum: &mut Option<Expr>,
    data: &mut Vec<WriteElement>,
  ) {
    filenum.iter_mut().for_each(|filenum| self.expr(filenum));
    at_least_one(data, || WriteElement { datum: missing(), comma: false });
    let only = data.len() == 1;
    for at in 0..data.len() {
      self.expr(&mut data[at].datum);
      if at > 0 && data[at].datum.kind != ExprKind::Error {
        self.fill_begin(&mut data[at].datum);
      }
      let comma = data[at].comma;
      if data[at].datum.kind == ExprKind::Error && !comma && !only {
        data[at].datum = self.zero();
      }
      if at > 0 && !apart(&data[at - 1].datum, &data[at].datum) {
        data[at - 1].comma = true;
      }
    }
  }

  // --------------------------------------------------------- expressions

  fn exprs(&mut self, exprs: &mut Vec<Expr>) {
    at_least_one(exprs, missing);
    exprs.iter_mut().for_each(|expr| self.expr(expr));
  }

  fn places(&mut self, places: &mut Vec<Expr>) {
    at_least_one(places, missing);
    places.iter_mut().for_each(|place| self.place(place));
  }

  /// What is assigned.
  fn place(&mut self, place: &mut Expr) {
    use ExprKind::*;
    if !matches!(place.kind, Ident | Index { .. } | Error) {
      *place = Expr { range: self.anew("V"), kind: Ident };
    }
    self.expr(place);
  }

  fn expr(&mut self, expr: &mut Expr) {
    match &mut expr.kind {
      ExprKind::Ident => self.name(&mut expr.range, false),
      ExprKind::StringLit => self.quoted(&mut expr.range),
      ExprKind::NumberLit(value) => {
        let value = *value;
        self.number(&mut expr.range, value);
      }
      ExprKind::SysFuncCall { args, .. } => self.exprs(args),
      ExprKind::UserFuncCall { func, arg } => {
        self.name_option(func, true);
        self.expr(arg);
      }
      ExprKind::Binary { lhs, op, rhs } => {
        self.expr(lhs);
        self.expr(rhs);
        // These would be read as signs, or as one with what stands before.
        if binding(op.1) == binding(BinaryOp::Add)
          || binding(op.1) == binding(BinaryOp::Eq)
        {
          self.fill_end(lhs);
        }
      }
      ExprKind::Unary { arg, .. } => self.expr(arg),
      ExprKind::Index { name, indices } => {
        let range = name.get_or_insert_with(|| self.anew("V"));
        self.name(range, true);
        self.exprs(indices);
      }
      ExprKind::Inkey | ExprKind::Error => {}
    }
  }

  fn zero(&mut self) -> Expr {
    let kind = ExprKind::NumberLit(Number::ZERO);
    Expr { range: self.anew("0"), kind }
  }

  /// Puts a zero for what is missing at an expression's end.
  fn fill_end(&mut self, expr: &mut Expr) {
    match &mut expr.kind {
      ExprKind::Error => *expr = self.zero(),
      ExprKind::Binary { rhs: last, .. }
      | ExprKind::Unary { arg: last, .. } => self.fill_end(last),
      _ => {}
    }
  }

  /// Puts a zero for a missing operand at an expression's begin.
  fn fill_begin(&mut self, expr: &mut Expr) {
    if let ExprKind::Binary { lhs, op, .. } = &mut expr.kind {
      if lhs.kind == ExprKind::Error {
        **lhs = self.zero();
      } else if !needs_parentheses(lhs, binding(op.1) - 1) {
        self.fill_begin(lhs);
      }
    }
  }

  fn name_option(&mut self, name: &mut Option<Range>, parenthesis: bool) {
    name.iter_mut().for_each(|name| self.name(name, parenthesis));
  }

  fn name(&mut self, range: &mut Range, parenthesis: bool) {
    let text = self.text(range);
    if !words::is_name(text, parenthesis) {
      let text = spelled_anew(text);
      self.put(range, text);
    }
  }

  fn number(&mut self, range: &mut Range, value: Number) {
    if words::number_value(self.text(range)) != Some(value) {
      self.put(range, number_text(value).encode_utf16().collect());
    }
  }

  /// A quote at the begin and the end, and none between.
  fn quoted(&mut self, range: &mut Range) {
    let text = whole_letters(self.text(range));
    let inside = match text.get(1..).unwrap_or_default() {
      [inside @ .., QUOTE] => inside,
      inside => inside,
    };
    let inside = inside.iter().map(|&unit| match unit {
      QUOTE => TICK,
      unit => unit,
    });
    let text = [QUOTE].into_iter().chain(inside).chain([QUOTE]).collect();
    self.put(range, text);
  }

  fn unquoted(&mut self, range: &mut Range) {
    let mut text = whole_letters(self.text(range));
    trim_end(&mut text);
    let blanks = text.iter().take_while(|&&unit| words::is_blank(unit)).count();
    text.drain(..blanks);
    for (at, unit) in text.iter_mut().enumerate() {
      if matches!(*unit, COMMA | COLON) || at == 0 && *unit == QUOTE {
        *unit = TICK;
      }
    }
    self.put(range, text);
  }
}

// ------------------------------------------------------ values side by side

/// Whether two expressions that stand side by side can be read as two. A tab
/// ends a name and a number, and a sign can stand in parentheses.
fn apart(before: &Expr, behind: &Expr) -> bool {
  !matches!(
    (right_edge(before), left_edge(behind)),
    (Edge::Nothing, _)
      | (_, Edge::Nothing)
      | (Edge::Name, Edge::Sign | Edge::Parenthesis)
  )
}

pub(super) fn begins_with_sign(expr: &Expr) -> bool {
  left_edge(expr) == Edge::Sign
}

/// The first or the last token of an expression.
#[derive(Clone, Copy, PartialEq, Eq)]
enum Edge {
  /// Something missing.
  Nothing,
  Sign,
  Name,
  Parenthesis,
  /// A word, a number or a text.
  Other,
}

fn left_edge(expr: &Expr) -> Edge {
  match &expr.kind {
    ExprKind::Binary { lhs, op, .. } => {
      operand_edge(lhs, binding(op.1) - 1, left_edge)
    }
    ExprKind::Unary { op: (_, UnaryOp::Not), .. } => Edge::Other,
    ExprKind::Unary { .. } => Edge::Sign,
    ExprKind::SysFuncCall { .. } | ExprKind::UserFuncCall { .. } => Edge::Other,
    ExprKind::Index { .. } => Edge::Name,
    _ => leaf_edge(expr),
  }
}

fn right_edge(expr: &Expr) -> Edge {
  match &expr.kind {
    ExprKind::Binary { rhs, op, .. } => {
      operand_edge(rhs, binding(op.1), right_edge)
    }
    ExprKind::Unary { arg, .. } => operand_edge(arg, TIGHTEST, right_edge),
    ExprKind::SysFuncCall { .. }
    | ExprKind::UserFuncCall { .. }
    | ExprKind::Index { .. } => Edge::Parenthesis,
    _ => leaf_edge(expr),
  }
}

fn operand_edge(
  operand: &Expr,
  tighter_than: usize,
  edge: fn(&Expr) -> Edge,
) -> Edge {
  if needs_parentheses(operand, tighter_than) {
    Edge::Parenthesis
  } else {
    edge(operand)
  }
}

fn leaf_edge(expr: &Expr) -> Edge {
  match &expr.kind {
    ExprKind::Ident => Edge::Name,
    ExprKind::Error => Edge::Nothing,
    _ => Edge::Other,
  }
}

// ------------------------------------------------------------------- pieces

fn missing() -> Expr {
  Expr { range: Range::default(), kind: ExprKind::Error }
}

fn at_least_one<T>(items: &mut Vec<T>, one: impl FnOnce() -> T) {
  if items.is_empty() {
    items.push(one());
  }
}

fn sayable_label(label: &mut u16) {
  *label %= GREATEST_LABEL + 1;
}

/// What stands behind an IF in a branch joins that IF's last branch.
fn join_behind_if(stmts: &mut Vec<Stmt>) {
  let is_if = |stmt: &Stmt| matches!(stmt.kind, StmtKind::If { .. });
  let Some(at) = stmts.iter().position(is_if) else {
    return;
  };
  let behind = stmts.split_off(at + 1);
  if let StmtKind::If { conseq, alt, .. } = &mut stmts[at].kind {
    alt.as_mut().unwrap_or(conseq).extend(behind);
  }
}

/// Without the ends of lines, and without halves of letters.
fn whole_letters(units: &[u16]) -> Vec<u16> {
  let whole = |&unit: &u16| match unit {
    10 | 13 => BLANK,
    0xd800..=0xdfff => u16::from(b'?'),
    _ => unit,
  };
  units.iter().map(whole).collect()
}

fn trim_end(text: &mut Vec<u16>) {
  text.truncate(text.len() - words::trailing_blanks(text));
}

/// A name for one that the dialect does not read: V and for each letter or
/// digit two digits, with the sigil.
fn spelled_anew(name: &[u16]) -> Vec<u16> {
  let mut text = "V".to_string();
  for &unit in name {
    let unit = u8::try_from(unit).unwrap_or_default();
    match unit.to_ascii_uppercase() {
      letter @ b'A'..=b'Z' => text += &(10 + letter - b'A').to_string(),
      digit @ b'0'..=b'9' => text += &format!("0{}", char::from(digit)),
      _ => {}
    }
  }
  let sigil = name.last().copied().filter(|unit| words::is_sigil(*unit));
  text.encode_utf16().chain(sigil).collect()
}

/// The shortest decimal of a literal's value.
fn number_text(number: Number) -> String {
  if number == Number::TOO_LARGE {
    return "1E39".to_string();
  }
  let value = f64::from(number.m) * 2f64.powi(number.e as i32 - 160);
  let (plain, with_exponent) = (value.to_string(), format!("{value:E}"));
  if with_exponent.len() < plain.len() { with_exponent } else { plain }
}
