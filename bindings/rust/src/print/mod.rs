//! Prints a tree as BASIC text, by the grammar that [`crate::basic::read`]
//! takes: a function a form.
//!
//! The text is that of [`normal`]'s tree, which says what a text can say.
//! Reading it gives that tree, with the ranges that [`print`] gives beside the
//! text. Lines longer than 4,095 units and parts nested more than 100 deep are
//! printed, but not read.

mod normal;
mod tokens;
mod words;

pub use normal::normal;

use crate::spelling::{
  FUNCTIONS, MODES, OPERATORS, PREFIXES, STATEMENTS, binding,
};
use crate::tree::*;
use normal::begins_with_sign;
use tokens::{Choose, Writer};

/// The text of a tree whose ranges cite `units`, the lines end to end, and the
/// tree with the ranges that this text gives.
pub fn print(program: &Program, units: &[u16]) -> (String, Program) {
  print_with(program, units, &mut |_| 0)
}

/// The same with a choice wherever a text can say the same in several ways:
/// `choose(n)` is a number below n, and 0 gives what [`print`] gives.
pub fn print_with(
  program: &Program,
  units: &[u16],
  choose: Choose,
) -> (String, Program) {
  let (program, units) = normal(program, units);
  let (mut text, mut lines) = (vec![], vec![]);
  // A byte order mark at the text's begin is a blank.
  let mark = choose(40) == 1;
  let line_end: &[u16] = if choose(4) == 1 { &[13, 10] } else { &[10] };
  for (number, (line, source)) in program.lines_of(&units).enumerate() {
    let mut writer = Writer::new(source, choose);
    if mark && number == 0 {
      writer.byte_order_mark();
    }
    let (label, stmts) = writer.line(line);
    let mut units = writer.units();
    let last = number + 1 == program.lines.len();
    // An empty line is one by its end alone.
    let ended = !last || units.is_empty() || choose(4) != 1;
    if ended {
      units.extend(line_end);
    }
    lines.push(Line { len: units.len(), label, stmts });
    text.extend(units);
  }
  (String::from_utf16_lossy(&text), Program { lines })
}

/// Whether an expression needs parentheses in a place that takes what binds
/// tighter.
fn needs_parentheses(expr: &Expr, tighter_than: usize) -> bool {
  match &expr.kind {
    ExprKind::Binary { op, .. } => binding(op.1) <= tighter_than,
    _ => false,
  }
}

/// Tighter than any binary operator.
const TIGHTEST: usize = usize::MAX;

fn spelling<T: PartialEq>(
  table: &[(&'static str, T)],
  wanted: T,
) -> &'static str {
  let found = table.iter().find(|(_, thing)| *thing == wanted);
  found.expect("each has a row in its table").0
}

impl Writer<'_> {
  fn line(&mut self, line: &Line) -> (Label, Vec<Stmt>) {
    self.outer_blanks();
    let label = self.label(&line.label);
    let stmts = self.stmts(&line.stmts);
    let end = deepest_last(&line.stmts);
    match end.map(|stmt| &stmt.kind) {
      // What follows would be theirs.
      Some(remark!(_) | StmtKind::Run(_)) => {}
      _ => self.outer_blanks(),
    }
    (label, stmts)
  }

  fn label(&mut self, label: &Label) -> Label {
    label.map(|(_, number)| (self.digits(number), number))
  }

  fn digits(&mut self, label: u16) -> Range {
    let zero = if self.choose(12) == 1 { "0" } else { "" };
    self.number(&format!("{zero}{label}"))
  }

  // ---------------------------------------------------------- statements

  /// A colon stands between two statements; one more is a statement by itself.
  fn stmts(&mut self, stmts: &[Stmt]) -> Vec<Stmt> {
    let mut written: Vec<Stmt> = vec![];
    for stmt in stmts {
      if let Some(before) = written.last()
        && before.kind != StmtKind::NoOp
      {
        self.sign(":");
      }
      written.push(self.stmt(stmt));
    }
    written
  }

  fn stmt(&mut self, stmt: &Stmt) -> Stmt {
    let (start, kind) = match &stmt.kind {
      StmtKind::Let { var, value } => self.let_(var, value),
      StmtKind::GoTo { keyword: false, label } => self.lone_label(label),
      StmtKind::NoOp => (self.sign(":").start, StmtKind::NoOp),
      kind => (self.statement_word(kind).start, self.behind_word(kind)),
    };
    Stmt { range: self.since(start), kind }
  }

  fn statement_word(&mut self, kind: &StmtKind) -> Range {
    let short = matches!(kind, StmtKind::Print(_)) && self.choose(3) == 1;
    if short { self.sign("?") } else { self.word(STATEMENTS[kind.case()]) }
  }

  /// `[LET] place = value`; nothing but the word tells of a missing place.
  fn let_(&mut self, var: &Expr, value: &Expr) -> (usize, StmtKind) {
    let missing = var.kind == ExprKind::Error;
    let word = missing || self.choose(4) == 1;
    let word = word.then(|| self.word("LET"));
    let (var, value) = self.assigned(var, value);
    let start = word.unwrap_or(var.range).start;
    (start, StmtKind::Let { var, value })
  }

  /// A label directly behind THEN or ELSE.
  fn lone_label(&mut self, label: &Label) -> (usize, StmtKind) {
    let label = self.label(label);
    let start = label.map_or(self.at(), |(range, _)| range.start);
    (start, StmtKind::GoTo { keyword: false, label })
  }

  /// `place = value`
  fn assigned(&mut self, var: &Expr, value: &Expr) -> (Expr, Expr) {
    let var = self.place(var);
    self.sign("=");
    (var, self.expr(value))
  }

  /// What stands behind a statement's word.
  fn behind_word(&mut self, kind: &StmtKind) -> StmtKind {
    use StmtKind::*;
    match kind {
      word_alone!() | NoOp => kind.clone(),
      remark!(text) => {
        let (text, mut kind) = (self.remark(text), kind.clone());
        if let remark!(old) = &mut kind {
          *old = text;
        }
        kind
      }
      Run(r) => Run(self.rest(r)),
      Box(args) => Box(self.exprs(args)),
      Circle(args) => Circle(self.exprs(args)),
      Draw(args) => Draw(self.exprs(args)),
      Ellipse(args) => Ellipse(self.exprs(args)),
      Line(args) => Line(self.exprs(args)),
      Load(args) => Load(self.exprs(args)),
      Paint(args) => Paint(self.exprs(args)),
      Dim(vars) => Dim(self.places(vars)),
      Read(vars) => Read(self.places(vars)),
      Call(arg) => Call(self.expr(arg)),
      Play(arg) => Play(self.expr(arg)),
      Sleep(arg) => Sleep(self.expr(arg)),
      While(arg) => While(self.expr(arg)),
      Close(arg) => Close(self.file(arg)),
      DebugPrint(arg) => DebugPrint(self.file(arg)),
      Get { filenum, record } => {
        let filenum = self.file(filenum);
        Get { filenum, record: self.comma_expr(record) }
      }
      Put { filenum, record } => {
        let filenum = self.file(filenum);
        Put { filenum, record: self.comma_expr(record) }
      }
      Fputc { filenum, value } => {
        let filenum = self.file(filenum);
        Fputc { filenum, value: self.comma_expr(value) }
      }
      Fseek { filenum, offset } => {
        let filenum = self.file(filenum);
        Fseek { filenum, offset: self.comma_expr(offset) }
      }
      Fread { filenum, addr, size } => {
        let filenum = self.file(filenum);
        let addr = self.comma_expr(addr);
        Fread { filenum, addr, size: self.comma_expr(size) }
      }
      Fwrite { filenum, addr, size } => {
        let filenum = self.file(filenum);
        let addr = self.comma_expr(addr);
        Fwrite { filenum, addr, size: self.comma_expr(size) }
      }
      Poke { addr, value } => {
        let addr = self.expr(addr);
        Poke { addr, value: self.comma_expr(value) }
      }
      Let { var, value } => {
        let (var, value) = self.assigned(var, value);
        Let { var, value }
      }
      LSet { var, value } => {
        let (var, value) = self.assigned(var, value);
        LSet { var, value }
      }
      RSet { var, value } => {
        let (var, value) = self.assigned(var, value);
        RSet { var, value }
      }
      Swap { left, right } => {
        let left = self.place(left);
        self.sign(",");
        Swap { left, right: self.place(right) }
      }
      GoSub(label) => GoSub(self.label(label)),
      GoTo { keyword, label } => {
        GoTo { keyword: *keyword, label: self.label(label) }
      }
      Restore(label) => Restore(self.label(label)),
      Data(data) => Data(self.list(data, Self::datum)),
      Next(vars) => Next(self.list(vars, Self::name)),
      Def { name, param, body } => self.def(name, param, body),
      Field { filenum, fields } => self.field(filenum, fields),
      For { var, start, end, step } => self.for_(var, start, end, step),
      If { cond, conseq, alt } => self.if_(cond, conseq, alt),
      Input { source, vars } => self.input(source, vars),
      Locate { row, column } => self.locate(row, column),
      On { cond, labels, is_sub } => self.on(cond, labels, *is_sub),
      Open { filename, mode, filenum, len } => {
        self.open(filename, *mode, filenum, len)
      }
      Print(elements) => self.print(elements),
      Write { filenum, data } => self.write(filenum, data),
    }
  }

  /// `item , item ..`
  fn list<T, U>(
    &mut self,
    items: &[T],
    mut write: impl FnMut(&mut Self, &T) -> U,
  ) -> Vec<U> {
    let mut written = vec![];
    for (at, item) in items.iter().enumerate() {
      if at > 0 {
        self.sign(",");
      }
      written.push(write(self, item));
    }
    written
  }

  fn exprs(&mut self, exprs: &[Expr]) -> Vec<Expr> {
    self.list(exprs, Self::expr)
  }

  fn places(&mut self, places: &[Expr]) -> Vec<Expr> {
    self.list(places, Self::place)
  }

  fn comma_expr(&mut self, expr: &Expr) -> Expr {
    self.sign(",");
    self.expr(expr)
  }

  /// A file's number: `# expression`, where the sign can be left out.
  fn file(&mut self, expr: &Expr) -> Expr {
    if self.choose(3) != 1 {
      self.sign("#");
    }
    self.expr(expr)
  }

  fn datum(&mut self, datum: &Datum) -> Datum {
    Datum { range: self.quoted(&datum.range), quoted: datum.quoted }
  }

  /// A name, or nothing where it is missing.
  fn name(&mut self, name: &Option<Range>) -> Option<Range> {
    name.map(|name| self.name_at(&name))
  }

  /// `DEF FN name ( name ) = expression`
  fn def(
    &mut self,
    name: &Option<Range>,
    param: &Option<Range>,
    body: &Expr,
  ) -> StmtKind {
    self.word("FN");
    let name = self.name(name);
    self.sign("(");
    let param = self.name(param);
    self.sign(")");
    self.sign("=");
    StmtKind::Def { name, param, body: self.expr(body) }
  }

  /// `FIELD # expression {, expression AS place}`
  fn field(&mut self, filenum: &Expr, fields: &[Field]) -> StmtKind {
    let filenum = self.file(filenum);
    let mut written = vec![];
    for field in fields {
      let len = self.comma_expr(&field.len);
      self.word("AS");
      written.push(Field { len, var: self.place(&field.var) });
    }
    StmtKind::Field { filenum, fields: written }
  }

  /// `FOR name = expression TO expression [STEP expression]`
  fn for_(
    &mut self,
    var: &Option<Range>,
    start: &Expr,
    end: &Expr,
    step: &Option<Expr>,
  ) -> StmtKind {
    let var = self.name(var);
    self.sign("=");
    let start = self.expr(start);
    self.word("TO");
    let end = self.expr(end);
    let step = step.as_ref().map(|step| {
      self.word("STEP");
      self.expr(step)
    });
    StmtKind::For { var, start, end, step }
  }

  /// `IF expression THEN branch [ELSE branch]`; THEN can be left out before a
  /// GOTO.
  fn if_(
    &mut self,
    cond: &Expr,
    conseq: &[Stmt],
    alt: &Option<Vec<Stmt>>,
  ) -> StmtKind {
    let cond = self.expr(cond);
    let jumps = matches!(
      conseq.first().map(|stmt| &stmt.kind),
      Some(StmtKind::GoTo { keyword: true, .. })
    );
    if !jumps || self.choose(2) != 1 {
      self.word("THEN");
    }
    let conseq_written = self.stmts(conseq);
    let alt = alt.as_ref().map(|alt| {
      self.colon_before_else(conseq);
      self.word("ELSE");
      self.stmts(alt)
    });
    StmtKind::If { cond, conseq: conseq_written, alt }
  }

  /// DATA goes on to a colon; elsewhere one can stand before ELSE.
  fn colon_before_else(&mut self, branch: &[Stmt]) {
    let colon = match deepest_last(branch).map(|stmt| &stmt.kind) {
      Some(StmtKind::Data(_)) => true,
      Some(StmtKind::NoOp) | None => false,
      Some(_) => self.choose(6) == 1,
    };
    if colon {
      self.sign(":");
    }
  }

  /// `INPUT ["prompt" ; | # expression ,] places`
  fn input(&mut self, source: &InputSource, vars: &[Expr]) -> StmtKind {
    let source = match source {
      InputSource::Keyboard => InputSource::Keyboard,
      InputSource::Prompt(prompt) => {
        let prompt = self.quoted(prompt);
        self.sign(";");
        InputSource::Prompt(prompt)
      }
      InputSource::File(filenum) => {
        self.sign("#");
        let filenum = self.expr(filenum);
        self.sign(",");
        InputSource::File(filenum)
      }
    };
    StmtKind::Input { source, vars: self.places(vars) }
  }

  /// `LOCATE [expression] [, expression]`
  fn locate(&mut self, row: &Option<Expr>, column: &Option<Expr>) -> StmtKind {
    let row = row.as_ref().map(|row| self.expr(row));
    let column = column.as_ref().map(|column| self.comma_expr(column));
    StmtKind::Locate { row, column }
  }

  /// `ON expression GOTO|GOSUB [label] {, [label]}`
  fn on(
    &mut self,
    cond: &Expr,
    labels: &[(Range, Option<u16>)],
    is_sub: bool,
  ) -> StmtKind {
    let cond = self.expr(cond);
    self.word(if is_sub { "GOSUB" } else { "GOTO" });
    let labels = self.list(labels, |writer, (_, label)| match label {
      Some(label) => (writer.digits(*label), Some(*label)),
      None => (writer.nothing(), None),
    });
    StmtKind::On { cond, labels, is_sub }
  }

  /// `OPEN expression FOR mode AS [#] expression [LEN = expression]`
  fn open(
    &mut self,
    filename: &Expr,
    mode: FileMode,
    filenum: &Expr,
    len: &Option<(Range, Expr)>,
  ) -> StmtKind {
    let filename = self.expr(filename);
    self.word("FOR");
    if mode != FileMode::Error {
      self.word(spelling(&MODES, mode));
    }
    self.word("AS");
    let filenum = self.file(filenum);
    let len = len.as_ref().map(|(_, len)| {
      let word = self.word("LEN");
      self.sign("=");
      (word, self.expr(len))
    });
    StmtKind::Open { filename, mode, filenum, len }
  }

  /// `PRINT` and expressions, commas and semicolons
  fn print(&mut self, elements: &[PrintElement]) -> StmtKind {
    let mut written = vec![];
    for element in elements {
      let beside = matches!(written.last(), Some(PrintElement::Expr(_)));
      written.push(match element {
        PrintElement::Comma(_) => PrintElement::Comma(self.sign(",")),
        PrintElement::Semicolon(_) => PrintElement::Semicolon(self.sign(";")),
        PrintElement::Expr(expr) => {
          PrintElement::Expr(self.element(expr, beside))
        }
      });
    }
    StmtKind::Print(written)
  }

  /// `WRITE [# expression ,] expression [,] ..`
  fn write(
    &mut self,
    filenum: &Option<Expr>,
    data: &[WriteElement],
  ) -> StmtKind {
    let filenum = filenum.as_ref().map(|filenum| {
      self.sign("#");
      let filenum = self.expr(filenum);
      self.sign(",");
      filenum
    });
    let mut written: Vec<WriteElement> = vec![];
    for WriteElement { datum, comma } in data {
      let beside = written.last().is_some_and(|before| !before.comma);
      let datum = self.element(datum, beside);
      if *comma {
        self.sign(",");
      }
      written.push(WriteElement { datum, comma: *comma });
    }
    StmtKind::Write { filenum, data: written }
  }

  // --------------------------------------------------------- expressions

  /// An expression of PRINT or WRITE, with another one directly before it or
  /// not.
  fn element(&mut self, expr: &Expr, beside: bool) -> Expr {
    if beside && begins_with_sign(expr) {
      return self.in_parentheses(expr);
    }
    self.bare_begin();
    self.expr(expr)
  }

  fn expr(&mut self, expr: &Expr) -> Expr {
    self.operand(expr, 0)
  }

  /// What is assigned: a variable or an element of an array; in INPUT also a
  /// function.
  fn place(&mut self, place: &Expr) -> Expr {
    self.simple(place)
  }

  /// An expression in a place that takes what binds tighter.
  fn operand(&mut self, expr: &Expr, tighter_than: usize) -> Expr {
    let needed = needs_parentheses(expr, tighter_than);
    if needed || self.adds_parentheses(expr) {
      self.in_parentheses(expr)
    } else {
      self.binary(expr)
    }
  }

  /// Parentheses that nothing asks for. A missing expression takes none.
  fn adds_parentheses(&mut self, expr: &Expr) -> bool {
    expr.kind != ExprKind::Error
      && self.can_add_parentheses()
      && self.choose(10) == 1
  }

  /// They widen the range but of names, strings and numbers.
  fn in_parentheses(&mut self, expr: &Expr) -> Expr {
    let start = self.sign("(").start;
    let mut inner = self.deeper(|writer| writer.expr(expr));
    self.sign(")");
    if !inner.kind.is_said_by_range() {
      inner.range = self.since(start);
    }
    inner
  }

  /// Operators of one binding from left to right: those that need no
  /// parentheses on the left are written in one go, however many they are.
  fn binary(&mut self, expr: &Expr) -> Expr {
    let mut operations = vec![];
    let mut left = expr;
    let mut lhs = loop {
      let ExprKind::Binary { lhs, op, rhs } = &left.kind else {
        break self.simple(left);
      };
      operations.push((op.1, rhs));
      let parentheses = needs_parentheses(lhs, binding(op.1) - 1);
      if parentheses || self.adds_parentheses(lhs) {
        break self.in_parentheses(lhs);
      }
      left = lhs;
    };
    for (op, rhs) in operations.into_iter().rev() {
      let op = (self.operator(spelling(&OPERATORS, op)), op);
      let rhs = Box::new(self.operand(rhs, binding(op.1)));
      let range = Range { start: lhs.range.start, end: rhs.range.end };
      let kind = ExprKind::Binary { lhs: Box::new(lhs), op, rhs };
      lhs = Expr { range, kind };
    }
    lhs
  }

  /// An expression that is no binary one.
  fn simple(&mut self, expr: &Expr) -> Expr {
    match &expr.kind {
      ExprKind::Ident => self.leaf(ExprKind::Ident, Self::name_at, expr),
      ExprKind::StringLit => self.leaf(ExprKind::StringLit, Self::quoted, expr),
      ExprKind::NumberLit(number) => {
        self.leaf(ExprKind::NumberLit(*number), Self::number_at, expr)
      }
      ExprKind::Inkey => {
        Expr { range: self.word("INKEY$"), kind: ExprKind::Inkey }
      }
      ExprKind::Error => Expr { range: self.nothing(), kind: ExprKind::Error },
      ExprKind::SysFuncCall { func, args } => self.function(func.1, args),
      ExprKind::UserFuncCall { func, arg } => self.user_function(func, arg),
      ExprKind::Unary { op, arg } => self.unary(op.1, arg),
      ExprKind::Index { name, indices } => self.index(name, indices),
      ExprKind::Binary { .. } => self.in_parentheses(expr),
    }
  }

  fn leaf(
    &mut self,
    kind: ExprKind,
    write: fn(&mut Self, &Range) -> Range,
    expr: &Expr,
  ) -> Expr {
    Expr { range: write(self, &expr.range), kind }
  }

  /// `( expression {, expression} )`
  fn arguments(&mut self, args: &[Expr]) -> Vec<Expr> {
    self.sign("(");
    let args = self.deeper(|writer| writer.exprs(args));
    self.sign(")");
    args
  }

  fn function(&mut self, func: SysFunc, args: &[Expr]) -> Expr {
    let word = self.function_word(spelling(&FUNCTIONS, func));
    let args = self.arguments(args);
    let kind = ExprKind::SysFuncCall { func: (word, func), args };
    Expr { range: self.since(word.start), kind }
  }

  fn user_function(&mut self, func: &Option<Range>, arg: &Expr) -> Expr {
    let word = self.word("FN");
    let func = self.name(func);
    self.sign("(");
    let arg = Box::new(self.deeper(|writer| writer.expr(arg)));
    self.sign(")");
    let kind = ExprKind::UserFuncCall { func, arg };
    Expr { range: self.since(word.start), kind }
  }

  /// A sign or NOT takes a sign, NOT or what binds tighter than all operators.
  fn unary(&mut self, op: UnaryOp, arg: &Expr) -> Expr {
    let word = self.operator(spelling(&PREFIXES, op));
    let arg = self.deeper(|writer| writer.operand(arg, TIGHTEST));
    let range = Range { start: word.start, end: arg.range.end };
    let kind = ExprKind::Unary { op: (word, op), arg: Box::new(arg) };
    Expr { range, kind }
  }

  fn index(&mut self, name: &Option<Range>, indices: &[Expr]) -> Expr {
    let name = self.name(name);
    let start = name.map_or_else(|| self.at(), |name| name.start);
    let indices = self.arguments(indices);
    let kind = ExprKind::Index { name, indices };
    Expr { range: self.since(start), kind }
  }
}

/// The statement that ends a list's text; none where a list is empty there.
fn deepest_last(stmts: &[Stmt]) -> Option<&Stmt> {
  let last = stmts.last()?;
  match &last.kind {
    StmtKind::If { conseq, alt, .. } => {
      deepest_last(alt.as_ref().unwrap_or(conseq))
    }
    _ => Some(last),
  }
}
