//! What was expected where the compiler makes a note of class 4, 5, 6, 7 or
//! 12: a walk over the tree in the compiler's order, with the kinds of value
//! that it goes by. Each such note has its explanation, in the order in which
//! the notes are made.

use crate::spelling::{FUNCTIONS, OPERATORS, PREFIXES, STATEMENTS};
use crate::tree::*;

/// The classes that are explained.
pub const CLASSES: [u32; 5] = [4, 5, 6, 7, 12];

/// What was expected at a place, and what to do.
#[derive(Clone, PartialEq, Eq, Debug)]
pub struct Explanation {
  pub class: u32,
  pub line: usize,
  pub range: Range,
  pub expected: String,
  pub hint: String,
  /// Whether the note is there because a part is missing.
  pub of_missing: bool,
}

/// The explanations of a form's notes; `units` is the whole text.
pub fn explain(units: &[u16], program: &Program) -> Vec<Explanation> {
  let mut walk = Walk { text: &[], line: 0, found: vec![] };
  for (number, (line, text)) in program.lines_of(units).enumerate() {
    (walk.text, walk.line) = (text, number);
    walk.stmts(&line.stmts);
  }
  walk.found
}

#[derive(Clone, Copy, PartialEq, Eq, Debug)]
enum Kind {
  Integer,
  Real,
  Text,
  /// Of a missing part: fits everything.
  Missing,
}

impl Kind {
  fn fits(self, other: Self) -> bool {
    let either_is = |kind| self == kind || other == kind;
    either_is(Self::Missing) || !either_is(Self::Text) || self == other
  }

  /// What a value of this kind is called.
  fn value(self) -> &'static str {
    match self {
      Self::Text => "a text",
      _ => "a number",
    }
  }

  /// What a name of this kind is called.
  fn name(self) -> &'static str {
    match self {
      Self::Integer => "an integer",
      Self::Real => "a real",
      Self::Text => "a text",
      Self::Missing => "missing",
    }
  }
}

/// A function's fewest arguments, the kinds of all that it takes, and the kind
/// of what it gives.
type Signature = (usize, &'static [Kind], Kind);

fn signature(func: SysFunc) -> Signature {
  use Kind::{Real, Text};
  use SysFunc::*;
  match func {
    Abs | Atn | Cos | Exp | Int | Log | Peek | Rnd | Sgn | Sin | Sqr | Tan
    | Eof | Lof | Pos | CheckKey | Fopen | Fgetc | Ftell | Tab | Spc => {
      (1, &[Real], Real)
    }
    Point => (2, &[Real, Real], Real),
    Asc | Cvi | Cvs | Len | Val => (1, &[Text], Real),
    Mki | Mks | Chr | Str => (1, &[Real], Text),
    Left | Right => (2, &[Text, Real], Text),
    Mid => (2, &[Text, Real, Real], Text),
  }
}

/// A call as it is written: `LEFT$(text, number)`.
fn pattern(func: SysFunc) -> String {
  let (min, kinds, _) = signature(func);
  let args = kinds.iter().enumerate().map(|(at, &kind)| {
    let kind = if kind == Kind::Text { "text" } else { "number" };
    let comma = if at == 0 { "" } else { ", " };
    if at < min { format!("{comma}{kind}") } else { format!("[{comma}{kind}]") }
  });
  format!("{}({})", word(func), args.collect::<String>())
}

fn word(func: SysFunc) -> &'static str {
  FUNCTIONS[func as usize].0
}

/// `LEFT$ takes 2 arguments, here is 1`.
fn arity(word: &str, min: usize, max: usize, here: usize) -> String {
  let takes =
    if min == max { format!("{min}") } else { format!("{min} to {max}") };
  let s = if max == 1 { "" } else { "s" };
  let are = if here == 1 { "is" } else { "are" };
  format!("{word} takes {takes} argument{s}, here {are} {here}")
}

const BETWEEN_KINDS: &str =
  "VAL makes a number of a text, STR$ a text of a number";

/// How the value of an expression becomes of the wanted kind.
fn change(expr: &Expr, wanted: Kind) -> String {
  match (&expr.kind, wanted) {
    (ExprKind::StringLit, Kind::Real | Kind::Integer) => {
      "write the number without quotes, or VAL makes a number of a text"
    }
    (_, Kind::Real | Kind::Integer) => "VAL makes a number of a text",
    (ExprKind::NumberLit(_), _) => "put quotes around it",
    (ExprKind::Ident, _) => {
      "the name of a text ends in $; STR$ makes a text of a number"
    }
    _ => "STR$ makes a text of a number",
  }
  .to_string()
}

struct Walk<'a> {
  /// The line's units, and its place among the lines.
  text: &'a [u16],
  line: usize,
  found: Vec<Explanation>,
}

impl Walk<'_> {
  fn tell(
    &mut self,
    class: u32,
    range: Range,
    expected: String,
    hint: impl Into<String>,
  ) {
    let (line, hint) = (self.line, hint.into());
    let of_missing = false;
    let told = Explanation { class, line, range, expected, hint, of_missing };
    self.found.push(told);
  }

  fn piece(&self, range: Range) -> String {
    range.text(self.text)
  }

  // ------------------------------------------------------------ statements

  fn stmts(&mut self, stmts: &[Stmt]) {
    for stmt in stmts {
      self.stmt(stmt);
    }
  }

  fn stmt(&mut self, stmt: &Stmt) {
    let range = stmt.range;
    let word = STATEMENTS[stmt.kind.case()];
    match &stmt.kind {
      StmtKind::Box(args) | StmtKind::Ellipse(args) => {
        self.draw(range, word, args, 4, 6)
      }
      StmtKind::Circle(args) => self.draw(range, word, args, 3, 5),
      StmtKind::Draw(args) => self.draw(range, word, args, 2, 3),
      StmtKind::Line(args) => self.draw(range, word, args, 4, 5),
      StmtKind::Paint(args) => self.draw(range, word, args, 5, 6),
      StmtKind::Call(arg) => self.number(arg, "as the address of CALL"),
      StmtKind::Close(arg) => self.number(arg, "as the file number of CLOSE"),
      StmtKind::Sleep(arg) => self.number(arg, "as the time of SLEEP"),
      StmtKind::While(arg) => self.number(arg, "as the condition of WHILE"),
      StmtKind::Play(arg) => self.text_of(arg, "as the notes of PLAY"),
      StmtKind::DebugPrint(arg) => {
        self.text_of(arg, "as the message of DEBUGPRINT")
      }
      StmtKind::Def { name, param, body } => self.def(name, param, body),
      StmtKind::Dim(vars) => self.dim(vars),
      StmtKind::Field { filenum, fields } => self.field(filenum, fields),
      StmtKind::For { var, start, end, step } => {
        if let Some(var) = var {
          self.real_name(*var, "the counter of FOR");
        }
        self.number(start, "as the first value of FOR");
        self.number(end, "as the last value of FOR");
        if let Some(step) = step {
          self.number(step, "as the step of FOR");
        }
      }
      StmtKind::Get { filenum, record } | StmtKind::Put { filenum, record } => {
        self.number(filenum, &format!("as the file number of {word}"));
        self.number(record, &format!("as the record number of {word}"));
      }
      StmtKind::If { cond, conseq, alt } => {
        self.number(cond, "as the condition of IF");
        self.stmts(conseq);
        self.stmts(alt.as_deref().unwrap_or(&[]));
      }
      StmtKind::Input { source, vars } => self.input(source, vars),
      StmtKind::Let { var, value } => self.let_(range, var, value),
      StmtKind::Load(args) => self.load(range, args),
      StmtKind::Locate { row, column } => {
        if let Some(row) = row {
          self.number(row, "as the row of LOCATE");
        }
        if let Some(column) = column {
          self.number(column, "as the column of LOCATE");
        }
      }
      StmtKind::LSet { var, value } | StmtKind::RSet { var, value } => {
        self.text_place(var, &format!("as the field of {word}"));
        self.text_of(value, &format!("as the value of {word}"));
      }
      StmtKind::Next(vars) => self.next(vars),
      StmtKind::On { cond, .. } => self.number(cond, "as the choice of ON"),
      StmtKind::Open { filename, mode, filenum, len } => {
        self.open(filename, *mode, filenum, len)
      }
      StmtKind::Poke { addr, value } => {
        self.number(addr, "as the address of POKE");
        self.number(value, "as the byte of POKE");
      }
      StmtKind::Print(elements) => self.print(elements),
      StmtKind::Read(vars) => {
        for var in vars {
          self.place(var);
        }
      }
      StmtKind::Swap { left, right } => self.swap(range, left, right),
      kind if *kind == StmtKind::System => self.tell(
        12,
        range,
        "SYSTEM is no statement of the recorders any more".to_string(),
        "take it out; END ends a form",
      ),
      StmtKind::Write { filenum, data } => {
        if let Some(filenum) = filenum {
          self.number(filenum, "as the file number of WRITE");
        }
        for element in data {
          self.expr(&element.datum);
        }
      }
      StmtKind::Fputc { filenum, value } => {
        self.number(filenum, "as the file number of FPUTC");
        self.text_of(value, "as the letter of FPUTC");
      }
      StmtKind::Fread { filenum, addr, size }
      | StmtKind::Fwrite { filenum, addr, size } => {
        self.number(filenum, &format!("as the file number of {word}"));
        self.number(addr, &format!("as the address of {word}"));
        self.number(size, &format!("as the length of {word}"));
      }
      StmtKind::Fseek { filenum, offset } => {
        self.number(filenum, "as the file number of FSEEK");
        self.number(offset, "as the place of FSEEK");
      }
      // These take no value.
      word_alone!()
      | remark!(_)
      | StmtKind::Data(_)
      | StmtKind::GoSub(_)
      | StmtKind::GoTo { .. }
      | StmtKind::Restore(_)
      | StmtKind::Run(_)
      | StmtKind::NoOp => {}
    }
  }

  fn draw(
    &mut self,
    range: Range,
    word: &str,
    args: &[Expr],
    min: usize,
    max: usize,
  ) {
    for (at, arg) in args.iter().enumerate() {
      if at < max {
        self.number(arg, &format!("as argument {} of {word}", at + 1));
      } else {
        self.expr(arg);
      }
    }
    let expected = arity(word, min, max, args.len());
    if args.len() < min {
      self.tell(
        6,
        range,
        expected,
        "put the missing ones, with commas between",
      );
    } else {
      for arg in args.iter().skip(max) {
        self.tell(7, arg.range, expected.clone(), "take this one out");
      }
    }
  }

  fn def(&mut self, name: &Option<Range>, param: &Option<Range>, body: &Expr) {
    if let Some(name) = name {
      self.real_name(*name, "the name of a function");
    }
    if let Some(param) = param {
      self.real_name(*param, "the parameter of a function");
    }
    self.number(body, "as the value of a function");
  }

  fn dim(&mut self, vars: &[Expr]) {
    for var in vars {
      if let ExprKind::Index { name, indices } = &var.kind {
        self.indices(name, indices);
      }
    }
  }

  fn field(&mut self, filenum: &Expr, fields: &[Field]) {
    for field in fields {
      self.number(&field.len, "as the length of a field");
      self.text_place(&field.var, "as a field of FIELD");
    }
    self.number(filenum, "as the file number of FIELD");
  }

  fn input(&mut self, source: &InputSource, vars: &[Expr]) {
    for var in vars {
      match (&var.kind, source) {
        (ExprKind::UserFuncCall { .. }, InputSource::File(_)) => self.tell(
          12,
          var.range,
          "INPUT reads a function from the keyboard alone".to_string(),
          "read the value into a variable",
        ),
        (ExprKind::UserFuncCall { func, arg }, _) => {
          self.input_function(func, arg)
        }
        _ => {
          self.place(var);
        }
      }
    }
    if let InputSource::File(filenum) = source {
      self.number(filenum, "as the file number of INPUT");
    }
  }

  fn input_function(&mut self, func: &Option<Range>, arg: &Expr) {
    if let Some(func) = func {
      self.real_name(*func, "the name of a function");
    }
    match arg.kind {
      ExprKind::Ident => {
        self.real_name(arg.range, "the parameter of a function")
      }
      _ => self.tell(
        12,
        arg.range,
        "the argument of a function in INPUT is a variable alone".to_string(),
        "write it as in INPUT FN F(X)",
      ),
    }
  }

  fn let_(&mut self, range: Range, var: &Expr, value: &Expr) {
    let place = self.place(var);
    let kind = self.expr(value);
    if place.fits(kind) {
      return;
    }
    let name = self.piece(match var.kind {
      ExprKind::Index { name: Some(name), .. } => name,
      _ => var.range,
    });
    let (wanted, given) = (place.value(), kind.value());
    let expected =
      format!("{wanted} is wanted as the value of {name}, this is {given}");
    let hint = match place {
      Kind::Text => change(value, Kind::Text),
      _ => {
        format!("the name of a text ends in $; {}", change(value, Kind::Real))
      }
    };
    self.tell(4, range, expected, hint);
  }

  fn load(&mut self, range: Range, args: &[Expr]) {
    let Some((addr, bytes)) = args.split_first() else {
      return;
    };
    self.number(addr, "as the address of LOAD");
    if bytes.is_empty() {
      let expected = "LOAD takes an address and at least one byte".to_string();
      self.tell(6, range, expected, "put the bytes, with commas between");
    }
    for byte in bytes {
      if !self.is_byte(byte) {
        self.tell(
          12,
          byte.range,
          "a byte of LOAD is a whole number from 0 to 255".to_string(),
          "write it in digits: no sign, name or sum stands here",
        );
      }
    }
  }

  fn is_byte(&self, byte: &Expr) -> bool {
    let written = self.piece(byte.range).replace(' ', "");
    matches!(byte.kind, ExprKind::NumberLit(_)) && written.parse::<u8>().is_ok()
  }

  fn next(&mut self, vars: &[Option<Range>]) {
    for var in vars.iter().flatten() {
      if self.name(*var) == Kind::Text {
        self.tell(
          5,
          *var,
          "the counter of NEXT is a number, this is a text".to_string(),
          "take the $ off the name, as in its FOR",
        );
      }
    }
  }

  fn open(
    &mut self,
    filename: &Expr,
    mode: FileMode,
    filenum: &Expr,
    len: &Option<(Range, Expr)>,
  ) {
    self.text_of(filename, "as the file name of OPEN");
    self.number(filenum, "as the file number of OPEN");
    let Some((word, len)) = len else {
      return;
    };
    if !matches!(mode, FileMode::Random | FileMode::Error) {
      self.tell(
        12,
        *word,
        "LEN stands in OPEN .. FOR RANDOM alone".to_string(),
        "take LEN out, or open the file FOR RANDOM",
      );
    }
    self.number(len, "as the record length of OPEN");
  }

  fn print(&mut self, elements: &[PrintElement]) {
    for element in elements {
      let PrintElement::Expr(expr) = element else {
        continue;
      };
      match &expr.kind {
        ExprKind::SysFuncCall {
          func: (_, func @ (SysFunc::Spc | SysFunc::Tab)),
          args,
        } => self.printed_blanks(*func, args),
        _ => {
          self.expr(expr);
        }
      }
    }
  }

  fn printed_blanks(&mut self, func: SysFunc, args: &[Expr]) {
    let word = word(func);
    for arg in args.iter().skip(1) {
      let expected = arity(word, 1, 1, args.len());
      self.tell(7, arg.range, expected, "take this one out");
    }
    for (at, arg) in args.iter().enumerate() {
      if at == 0 {
        self.number(arg, &format!("as the argument of {word}"));
      } else {
        self.expr(arg);
      }
    }
  }

  fn swap(&mut self, range: Range, left: &Expr, right: &Expr) {
    let (left, right) = (self.place(left), self.place(right));
    if left == right {
      return;
    }
    let of_missing = left == Kind::Missing || right == Kind::Missing;
    let (left, right) = (left.name(), right.name());
    let expected = format!(
      "both sides of SWAP have to be of the same kind: the left is {left}, the right {right}"
    );
    let hint = "give both names the same sign at their end: %, $ or none";
    self.tell(4, range, expected, hint);
    if let Some(told) = self.found.last_mut() {
      told.of_missing = of_missing;
    }
  }

  // ----------------------------------------------------------- expressions

  fn number(&mut self, expr: &Expr, role: &str) {
    self.wants(expr, Kind::Real, role);
  }

  fn text_of(&mut self, expr: &Expr, role: &str) {
    self.wants(expr, Kind::Text, role);
  }

  fn wants(&mut self, expr: &Expr, wanted: Kind, role: &str) {
    let kind = self.expr(expr);
    self.holds(expr, kind, wanted, role);
  }

  fn text_place(&mut self, expr: &Expr, role: &str) {
    let kind = self.place(expr);
    self.holds(expr, kind, Kind::Text, role);
  }

  /// Tells if a kind is not the wanted one.
  fn holds(&mut self, expr: &Expr, kind: Kind, wanted: Kind, role: &str) {
    if !kind.fits(wanted) {
      let (value, given) = (wanted.value(), kind.value());
      let expected = format!("{value} is wanted {role}, this is {given}");
      let hint = change(expr, wanted);
      self.tell(4, expr.range, expected, hint);
    }
  }

  fn expr(&mut self, expr: &Expr) -> Kind {
    match &expr.kind {
      ExprKind::Ident => self.name(expr.range),
      ExprKind::StringLit | ExprKind::Inkey => Kind::Text,
      ExprKind::NumberLit(_) => Kind::Real,
      ExprKind::SysFuncCall { func, args } => {
        self.call(expr.range, *func, args)
      }
      ExprKind::UserFuncCall { func, arg } => {
        if let Some(func) = func {
          self.real_name(*func, "the name of a function");
        }
        self.number(arg, "as the argument of a function");
        Kind::Real
      }
      ExprKind::Binary { lhs, op, rhs } => self.binary(lhs, *op, rhs),
      ExprKind::Unary { op, arg } => {
        let word = PREFIXES[op.1 as usize].0;
        self.number(arg, &format!("behind {word}"));
        Kind::Real
      }
      ExprKind::Index { name, indices } => self.indices(name, indices),
      ExprKind::Error => Kind::Missing,
    }
  }

  /// The kind of an assigned place.
  fn place(&mut self, place: &Expr) -> Kind {
    match &place.kind {
      ExprKind::Ident => self.name(place.range),
      ExprKind::Index { name, indices } => self.indices(name, indices),
      _ => Kind::Missing,
    }
  }

  fn indices(&mut self, name: &Option<Range>, indices: &[Expr]) -> Kind {
    let shown = name.map(|name| format!(" of {}", self.piece(name)));
    let role = format!("as a subscript{}", shown.unwrap_or_default());
    for index in indices {
      let kind = self.expr(index);
      self.holds(index, kind, Kind::Real, &role);
    }
    name.map_or(Kind::Missing, |name| self.name(name))
  }

  fn name(&self, range: Range) -> Kind {
    match self.piece(range).chars().last() {
      Some('%') => Kind::Integer,
      Some('$') => Kind::Text,
      _ => Kind::Real,
    }
  }

  fn real_name(&mut self, range: Range, what: &str) {
    let kind = self.name(range);
    if kind != Kind::Real {
      let expected = format!("{what} is a real, this is {}", kind.name());
      self.tell(5, range, expected, "take the % or $ off the name");
    }
  }

  fn call(
    &mut self,
    range: Range,
    func: (Range, SysFunc),
    args: &[Expr],
  ) -> Kind {
    let (at, func) = func;
    let word = word(func);
    let (min, kinds, result) = signature(func);
    let max = kinds.len();
    if matches!(func, SysFunc::Tab | SysFunc::Spc) {
      let expected = format!("{word} stands in PRINT alone");
      let hint =
        format!("write {word} as a part of PRINT by itself, not in a sum");
      self.tell(12, at, expected, hint);
    }
    if args.len() < min || args.len() > max {
      let class = if args.len() < min { 6 } else { 7 };
      let expected = arity(word, min, max, args.len());
      let hint = format!("write it as {}", pattern(func));
      self.tell(class, range, expected, hint);
    }
    for (at, arg) in args.iter().enumerate() {
      match kinds.get(at) {
        Some(&kind) if max == 1 => {
          self.wants(arg, kind, &format!("as the argument of {word}"))
        }
        Some(&kind) => {
          self.wants(arg, kind, &format!("as argument {} of {word}", at + 1))
        }
        None => {
          self.expr(arg);
        }
      }
    }
    result
  }

  fn binary(&mut self, lhs: &Expr, op: (Range, BinaryOp), rhs: &Expr) -> Kind {
    use BinaryOp::*;
    let (at, op) = op;
    let word = OPERATORS[op as usize].0;
    let (left, right) = (self.expr(lhs), self.expr(rhs));
    match op {
      Sub | Mul | Div | Pow | And | Or => {
        self.holds(lhs, left, Kind::Real, &format!("on the left of {word}"));
        self.holds(rhs, right, Kind::Real, &format!("on the right of {word}"));
        Kind::Real
      }
      Eq | Ne | Gt | Lt | Ge | Le | Add => {
        let fits = left.fits(right);
        if !fits {
          let expected = format!(
            "both sides of {word} have to be of the same kind: the left is {}, the right {}",
            left.value(),
            right.value()
          );
          self.tell(4, at, expected, BETWEEN_KINDS);
        }
        match op {
          Add if !fits => Kind::Missing,
          Add if left == Kind::Integer => Kind::Real,
          Add => left,
          _ => Kind::Real,
        }
      }
    }
  }
}
