//! The sheet: a tree as words (`encode`) and words as a tree (`decode`).
//! `decode` answers None where a word's kind or payload can't be read; the
//! other rules of the form are `form`'s.

use crate::ast::*;
use crate::parser::ParseResult;
use crate::standins::{Arena, SmallVec, Value};

pub const RANGE: u32 = 0x01;
pub const ABSENT: u32 = 0x02;
pub const LABEL: u32 = 0x03;
pub const COUNT: u32 = 0x04;
pub const YES_NO: u32 = 0x05;
pub const FILE_MODE: u32 = 0x06;
pub const INPUT_SOURCE: u32 = 0x07;
pub const PRINT_ELEMENT: u32 = 0x08;
pub const PLACE: u32 = 0x09;
pub const EXPONENT: u32 = 0x0a;
pub const MANTISSA: u32 = 0x0b;
pub const PROGRAM: u32 = 0x0f;
pub const LINE: u32 = 0x10;
pub const STMT: u32 = 0x20;
pub const EXPR: u32 = 0x21;

pub fn word(kind: u32, payload: u32) -> u32 {
  assert!(payload < 1 << 24);
  (kind << 24) + payload
}

pub fn kind(word: u32) -> u32 {
  word >> 24
}

pub fn payload(word: u32) -> u32 {
  word & 0xff_ffff
}

pub fn range_word(range: &Range) -> u32 {
  word(RANGE, range.start as u32 * 4096 + range.end as u32)
}

pub const SYS_FUNCS: [SysFuncKind; 34] = [
  SysFuncKind::Abs,
  SysFuncKind::Asc,
  SysFuncKind::Atn,
  SysFuncKind::Chr,
  SysFuncKind::Cos,
  SysFuncKind::Cvi,
  SysFuncKind::Cvs,
  SysFuncKind::Eof,
  SysFuncKind::Exp,
  SysFuncKind::Int,
  SysFuncKind::Left,
  SysFuncKind::Len,
  SysFuncKind::Lof,
  SysFuncKind::Log,
  SysFuncKind::Mid,
  SysFuncKind::Mki,
  SysFuncKind::Mks,
  SysFuncKind::Peek,
  SysFuncKind::Pos,
  SysFuncKind::Right,
  SysFuncKind::Rnd,
  SysFuncKind::Sgn,
  SysFuncKind::Sin,
  SysFuncKind::Sqr,
  SysFuncKind::Str,
  SysFuncKind::Tan,
  SysFuncKind::Val,
  SysFuncKind::Tab,
  SysFuncKind::Spc,
  SysFuncKind::Point,
  SysFuncKind::CheckKey,
  SysFuncKind::Fopen,
  SysFuncKind::Fgetc,
  SysFuncKind::Ftell,
];

pub const BINARY_OPS: [BinaryOpKind; 13] = [
  BinaryOpKind::Eq,
  BinaryOpKind::Ne,
  BinaryOpKind::Gt,
  BinaryOpKind::Lt,
  BinaryOpKind::Ge,
  BinaryOpKind::Le,
  BinaryOpKind::Add,
  BinaryOpKind::Sub,
  BinaryOpKind::Mul,
  BinaryOpKind::Div,
  BinaryOpKind::Pow,
  BinaryOpKind::And,
  BinaryOpKind::Or,
];

pub const UNARY_OPS: [UnaryOpKind; 3] =
  [UnaryOpKind::Not, UnaryOpKind::Neg, UnaryOpKind::Pos];

/// Document 01's order: 0 Error, 1 Random, then the others as declared.
pub const FILE_MODES: [FileMode; 6] = [
  FileMode::Error,
  FileMode::Random,
  FileMode::Input,
  FileMode::Output,
  FileMode::Append,
  FileMode::Binary,
];

/// The place of `item` in one of the tables above.
pub fn place_in<T: PartialEq>(table: &[T], item: T) -> u32 {
  table.iter().position(|x| *x == item).unwrap() as u32
}

/// The place of a statement's case in StmtKind.
pub fn stmt_case(kind: &StmtKind) -> u32 {
  match kind {
    StmtKind::Auto(_) => 0,
    StmtKind::Beep => 1,
    StmtKind::Box(_) => 2,
    StmtKind::Call(_) => 3,
    StmtKind::Circle(_) => 4,
    StmtKind::Clear => 5,
    StmtKind::Close { .. } => 6,
    StmtKind::Cls => 7,
    StmtKind::Cont => 8,
    StmtKind::Copy(_) => 9,
    StmtKind::Data(_) => 10,
    StmtKind::Def { .. } => 11,
    StmtKind::Del(_) => 12,
    StmtKind::Dim(_) => 13,
    StmtKind::Draw(_) => 14,
    StmtKind::Edit(_) => 15,
    StmtKind::Ellipse(_) => 16,
    StmtKind::End => 17,
    StmtKind::Field { .. } => 18,
    StmtKind::Files(_) => 19,
    StmtKind::Flash => 20,
    StmtKind::For { .. } => 21,
    StmtKind::Get { .. } => 22,
    StmtKind::GoSub(_) => 23,
    StmtKind::GoTo { .. } => 24,
    StmtKind::Graph => 25,
    StmtKind::If { .. } => 26,
    StmtKind::InKey => 27,
    StmtKind::Input { .. } => 28,
    StmtKind::Inverse => 29,
    StmtKind::Kill(_) => 30,
    StmtKind::Let { .. } => 31,
    StmtKind::Line(_) => 32,
    StmtKind::List(_) => 33,
    StmtKind::Load(_) => 34,
    StmtKind::Locate { .. } => 35,
    StmtKind::LSet { .. } => 36,
    StmtKind::New(_) => 37,
    StmtKind::Next { .. } => 38,
    StmtKind::Normal => 39,
    StmtKind::NoTrace => 40,
    StmtKind::On { .. } => 41,
    StmtKind::Open { .. } => 42,
    StmtKind::Paint(_) => 43,
    StmtKind::Play(_) => 44,
    StmtKind::Poke { .. } => 45,
    StmtKind::Pop => 46,
    StmtKind::Print(_) => 47,
    StmtKind::Put { .. } => 48,
    StmtKind::Read(_) => 49,
    StmtKind::Rem(_) => 50,
    StmtKind::Rename(_) => 51,
    StmtKind::Restore(_) => 52,
    StmtKind::Return => 53,
    StmtKind::RSet { .. } => 54,
    StmtKind::Run(_) => 55,
    StmtKind::Save(_) => 56,
    StmtKind::Stop(_) => 57,
    StmtKind::Swap { .. } => 58,
    StmtKind::System => 59,
    StmtKind::Text => 60,
    StmtKind::Trace => 61,
    StmtKind::Wend => 62,
    StmtKind::While(_) => 63,
    StmtKind::Write { .. } => 64,
    StmtKind::Sleep(_) => 65,
    StmtKind::Fputc { .. } => 66,
    StmtKind::Fread { .. } => 67,
    StmtKind::Fwrite { .. } => 68,
    StmtKind::Fseek { .. } => 69,
    StmtKind::DebugPrint { .. } => 70,
    StmtKind::NoOp => 71,
  }
}

pub fn expr_case(kind: &ExprKind) -> u32 {
  match kind {
    ExprKind::Ident => 0,
    ExprKind::StringLit => 1,
    ExprKind::NumberLit => 2,
    ExprKind::SysFuncCall { .. } => 3,
    ExprKind::UserFuncCall { .. } => 4,
    ExprKind::Binary { .. } => 5,
    ExprKind::Unary { .. } => 6,
    ExprKind::Index { .. } => 7,
    ExprKind::Inkey => 8,
    ExprKind::Error => 9,
  }
}

// ---------------------------------------------------------------- encode

pub fn encode(prog: &Program) -> Vec<u32> {
  let mut words = vec![word(PROGRAM, prog.lines.len() as u32)];
  for line in &prog.lines {
    words.push(word(LINE, line.content.source_len as u32));
    let mut writer = Writer { words: &mut words, line };
    writer.label(&line.content.label);
    writer.stmts(&line.content.stmts);
  }
  words
}

struct Writer<'a> {
  words: &'a mut Vec<u32>,
  line: &'a ParseResult<ProgramLine>,
}

impl Writer<'_> {
  fn put(&mut self, kind: u32, payload: u32) {
    self.words.push(word(kind, payload));
  }

  fn absent(&mut self) {
    self.put(ABSENT, 0);
  }

  fn range(&mut self, range: &Range) {
    self.words.push(range_word(range));
  }

  fn range_option(&mut self, range: &Option<Range>) {
    match range {
      Some(range) => self.range(range),
      None => self.absent(),
    }
  }

  fn yes_no(&mut self, yes: bool) {
    self.put(YES_NO, yes as u32);
  }

  fn label(&mut self, label: &Option<(Range, Label)>) {
    match label {
      Some((range, label)) => {
        self.range(range);
        self.put(LABEL, label.0 as u32);
      }
      None => self.absent(),
    }
  }

  fn stmts(&mut self, stmts: &[StmtId]) {
    self.put(COUNT, stmts.len() as u32);
    for &stmt in stmts {
      self.stmt(stmt);
    }
  }

  fn exprs(&mut self, exprs: &[ExprId]) {
    self.put(COUNT, exprs.len() as u32);
    for &expr in exprs {
      self.expr(expr);
    }
  }

  fn expr_option(&mut self, expr: &Option<ExprId>) {
    match expr {
      Some(expr) => self.expr(*expr),
      None => self.absent(),
    }
  }

  fn stmt(&mut self, id: StmtId) {
    let line = self.line;
    let stmt = line.stmt_arena.peek(id);
    self.put(STMT, stmt_case(&stmt.kind));
    self.range(&stmt.range);
    match &stmt.kind {
      StmtKind::Auto(range)
      | StmtKind::Copy(range)
      | StmtKind::Del(range)
      | StmtKind::Edit(range)
      | StmtKind::Files(range)
      | StmtKind::Kill(range)
      | StmtKind::List(range)
      | StmtKind::New(range)
      | StmtKind::Rem(range)
      | StmtKind::Rename(range)
      | StmtKind::Run(range)
      | StmtKind::Save(range)
      | StmtKind::Stop(range) => self.range(range),
      StmtKind::Beep
      | StmtKind::Clear
      | StmtKind::Cls
      | StmtKind::Cont
      | StmtKind::End
      | StmtKind::Flash
      | StmtKind::Graph
      | StmtKind::InKey
      | StmtKind::Inverse
      | StmtKind::Normal
      | StmtKind::NoTrace
      | StmtKind::Pop
      | StmtKind::Return
      | StmtKind::System
      | StmtKind::Text
      | StmtKind::Trace
      | StmtKind::Wend
      | StmtKind::NoOp => {}
      StmtKind::Box(args) => self.exprs(args),
      StmtKind::Circle(args) => self.exprs(args),
      StmtKind::Draw(args) => self.exprs(args),
      StmtKind::Ellipse(args) => self.exprs(args),
      StmtKind::Line(args) => self.exprs(args),
      StmtKind::Load(args) => self.exprs(args),
      StmtKind::Paint(args) => self.exprs(args),
      StmtKind::Dim(vars) | StmtKind::Read(vars) => self.exprs(vars),
      StmtKind::Call(arg)
      | StmtKind::Play(arg)
      | StmtKind::Sleep(arg)
      | StmtKind::While(arg)
      | StmtKind::Close { filenum: arg }
      | StmtKind::DebugPrint { value: arg } => self.expr(*arg),
      StmtKind::Data(data) => {
        self.put(COUNT, data.len().get() as u32);
        for datum in data.iter() {
          self.range(&datum.range);
          self.yes_no(datum.is_quoted);
        }
      }
      StmtKind::Def { name, param, body } => {
        self.range_option(name);
        self.range_option(param);
        self.expr(*body);
      }
      StmtKind::Field { filenum, fields } => {
        self.expr(*filenum);
        self.put(COUNT, fields.len().get() as u32);
        for field in fields.iter() {
          self.expr(field.len);
          self.expr(field.var);
        }
      }
      StmtKind::For { var, start, end, step } => {
        self.range_option(var);
        self.expr(*start);
        self.expr(*end);
        self.expr_option(step);
      }
      StmtKind::GoSub(label) | StmtKind::Restore(label) => self.label(label),
      StmtKind::GoTo { has_goto_keyword, label } => {
        self.yes_no(*has_goto_keyword);
        self.label(label);
      }
      StmtKind::If { cond, conseq, alt } => {
        self.expr(*cond);
        self.stmts(conseq);
        match alt {
          Some(alt) => self.stmts(alt),
          None => self.absent(),
        }
      }
      StmtKind::Input { source, vars } => {
        match source {
          InputSource::Keyboard(None) => self.put(INPUT_SOURCE, 0),
          InputSource::Keyboard(Some(prompt)) => {
            self.put(INPUT_SOURCE, 1);
            self.range(prompt);
          }
          InputSource::File(filenum) => {
            self.put(INPUT_SOURCE, 2);
            self.expr(*filenum);
          }
        }
        self.exprs(vars);
      }
      StmtKind::Let { var: a, value: b }
      | StmtKind::LSet { var: a, value: b }
      | StmtKind::RSet { var: a, value: b }
      | StmtKind::Get { filenum: a, record: b }
      | StmtKind::Put { filenum: a, record: b }
      | StmtKind::Poke { addr: a, value: b }
      | StmtKind::Swap { left: a, right: b }
      | StmtKind::Fputc { filenum: a, value: b }
      | StmtKind::Fseek { filenum: a, offset: b } => {
        self.expr(*a);
        self.expr(*b);
      }
      StmtKind::Fread { filenum, addr, size }
      | StmtKind::Fwrite { filenum, addr, size } => {
        self.expr(*filenum);
        self.expr(*addr);
        self.expr(*size);
      }
      StmtKind::Locate { row, column } => {
        self.expr_option(row);
        self.expr_option(column);
      }
      StmtKind::Next { vars } => {
        self.put(COUNT, vars.len() as u32);
        for var in vars {
          self.range_option(var);
        }
      }
      StmtKind::On { cond, labels, is_sub } => {
        self.expr(*cond);
        self.put(COUNT, labels.len().get() as u32);
        for (range, label) in labels.iter() {
          self.range(range);
          match label {
            Some(label) => self.put(LABEL, label.0 as u32),
            None => self.absent(),
          }
        }
        self.yes_no(*is_sub);
      }
      StmtKind::Open { filename, mode, filenum, len } => {
        self.expr(*filename);
        self.put(FILE_MODE, place_in(&FILE_MODES, *mode));
        self.expr(*filenum);
        match len {
          Some((range, len)) => {
            self.range(range);
            self.expr(*len);
          }
          None => self.absent(),
        }
      }
      StmtKind::Print(elems) => {
        self.put(COUNT, elems.len() as u32);
        for elem in elems {
          match elem {
            PrintElement::Expr(expr) => {
              self.put(PRINT_ELEMENT, 0);
              self.expr(*expr);
            }
            PrintElement::Comma(range) => {
              self.put(PRINT_ELEMENT, 1);
              self.range(range);
            }
            PrintElement::Semicolon(range) => {
              self.put(PRINT_ELEMENT, 2);
              self.range(range);
            }
          }
        }
      }
      StmtKind::Write { filenum, data } => {
        self.expr_option(filenum);
        self.put(COUNT, data.len().get() as u32);
        for elem in data.iter() {
          self.expr(elem.datum);
          self.yes_no(elem.comma);
        }
      }
    }
  }

  fn expr(&mut self, id: ExprId) {
    let line = self.line;
    let expr = line.expr_arena.peek(id);
    self.put(EXPR, expr_case(&expr.kind));
    self.range(&expr.range);
    match &expr.kind {
      ExprKind::Ident
      | ExprKind::StringLit
      | ExprKind::Inkey
      | ExprKind::Error => {}
      ExprKind::NumberLit => {
        let value = line.expr_arena.value(id).unwrap();
        self.put(EXPONENT, value.e);
        self.put(MANTISSA, value.m >> 16);
        self.put(MANTISSA, value.m & 0xffff);
      }
      ExprKind::SysFuncCall { func, args } => {
        self.range(&func.0);
        self.put(PLACE, place_in(&SYS_FUNCS, func.1));
        self.exprs(args);
      }
      ExprKind::UserFuncCall { func, arg } => {
        self.range_option(func);
        self.expr(*arg);
      }
      ExprKind::Binary { lhs, op, rhs } => {
        self.expr(*lhs);
        self.range(&op.0);
        self.put(PLACE, place_in(&BINARY_OPS, op.1));
        self.expr(*rhs);
      }
      ExprKind::Unary { op, arg } => {
        self.range(&op.0);
        self.put(PLACE, place_in(&UNARY_OPS, op.1));
        self.expr(*arg);
      }
      ExprKind::Index { name, indices } => {
        self.range_option(name);
        self.exprs(indices);
      }
    }
  }
}

// ---------------------------------------------------------------- decode

pub fn decode(words: &[u32]) -> Option<Program> {
  let mut reader =
    Reader { words, at: 0, stmts: Arena::new(), exprs: Arena::new() };
  let lines = reader.take(PROGRAM)?;
  let mut prog = Program { lines: vec![] };
  for _ in 0..lines {
    let source_len = reader.take(LINE)? as usize;
    let label = reader.label()?;
    let stmts = SmallVec(reader.stmts()?);
    prog.lines.push(ParseResult {
      content: ProgramLine { source_len, label, stmts },
      stmt_arena: std::mem::replace(&mut reader.stmts, Arena::new()),
      expr_arena: std::mem::replace(&mut reader.exprs, Arena::new()),
      diagnostics: vec![],
    });
  }
  (reader.at == words.len()).then_some(prog)
}

struct Reader<'a> {
  words: &'a [u32],
  at: usize,
  stmts: Arena<Stmt>,
  exprs: Arena<Expr>,
}

impl Reader<'_> {
  /// The payload of the next word, if it is of the kind.
  fn take(&mut self, wanted: u32) -> Option<u32> {
    let word = *self.words.get(self.at)?;
    if kind(word) != wanted {
      return None;
    }
    self.at += 1;
    Some(payload(word))
  }

  fn take_place(&mut self, wanted: u32, places: usize) -> Option<usize> {
    let place = self.take(wanted)? as usize;
    (place < places).then_some(place)
  }

  /// Whether the option is there; passes over an absent word.
  fn present(&mut self) -> Option<bool> {
    if kind(*self.words.get(self.at)?) != ABSENT {
      return Some(true);
    }
    (self.take(ABSENT)? == 0).then_some(false)
  }

  fn range(&mut self) -> Option<Range> {
    let range = self.take(RANGE)? as usize;
    Some(Range::new(range / 4096, range % 4096))
  }

  fn range_option(&mut self) -> Option<Option<Range>> {
    if self.present()? { self.range().map(Some) } else { Some(None) }
  }

  fn yes_no(&mut self) -> Option<bool> {
    self.take_place(YES_NO, 2).map(|yes| yes == 1)
  }

  fn label_number(&mut self) -> Option<Label> {
    u16::try_from(self.take(LABEL)?).ok().map(Label)
  }

  fn label(&mut self) -> Option<Option<(Range, Label)>> {
    if self.present()? {
      Some(Some((self.range()?, self.label_number()?)))
    } else {
      Some(None)
    }
  }

  fn list<T>(
    &mut self,
    mut item: impl FnMut(&mut Self) -> Option<T>,
  ) -> Option<Vec<T>> {
    let count = self.take(COUNT)?;
    let mut items = vec![];
    for _ in 0..count {
      items.push(item(self)?);
    }
    Some(items)
  }

  fn stmts(&mut self) -> Option<Vec<StmtId>> {
    self.list(Self::stmt)
  }

  /// A list of expressions with at least one.
  fn exprs<A>(&mut self) -> Option<NonEmptyVec<A>>
  where
    A: crate::standins::Array<Item = ExprId>,
  {
    NonEmptyVec::new(self.list(Self::expr)?)
  }

  fn expr_option(&mut self) -> Option<Option<ExprId>> {
    if self.present()? { self.expr().map(Some) } else { Some(None) }
  }

  fn stmt(&mut self) -> Option<StmtId> {
    let case = self.take(STMT)?;
    let range = self.range()?;
    let kind = match case {
      0 => StmtKind::Auto(self.range()?),
      1 => StmtKind::Beep,
      2 => StmtKind::Box(self.exprs()?),
      3 => StmtKind::Call(self.expr()?),
      4 => StmtKind::Circle(self.exprs()?),
      5 => StmtKind::Clear,
      6 => StmtKind::Close { filenum: self.expr()? },
      7 => StmtKind::Cls,
      8 => StmtKind::Cont,
      9 => StmtKind::Copy(self.range()?),
      10 => StmtKind::Data(NonEmptyVec::new(self.list(|r| {
        Some(Datum { range: r.range()?, is_quoted: r.yes_no()? })
      })?)?),
      11 => StmtKind::Def {
        name: self.range_option()?,
        param: self.range_option()?,
        body: self.expr()?,
      },
      12 => StmtKind::Del(self.range()?),
      13 => StmtKind::Dim(self.exprs()?),
      14 => StmtKind::Draw(self.exprs()?),
      15 => StmtKind::Edit(self.range()?),
      16 => StmtKind::Ellipse(self.exprs()?),
      17 => StmtKind::End,
      18 => StmtKind::Field {
        filenum: self.expr()?,
        fields: NonEmptyVec::new(self.list(|r| {
          // A field's own range has no word in the sheet, and the compiler
          // does not look at it.
          Some(FieldSpec {
            range: Range::empty(0),
            len: r.expr()?,
            var: r.expr()?,
          })
        })?)?,
      },
      19 => StmtKind::Files(self.range()?),
      20 => StmtKind::Flash,
      21 => StmtKind::For {
        var: self.range_option()?,
        start: self.expr()?,
        end: self.expr()?,
        step: self.expr_option()?,
      },
      22 => StmtKind::Get { filenum: self.expr()?, record: self.expr()? },
      23 => StmtKind::GoSub(self.label()?),
      24 => StmtKind::GoTo {
        has_goto_keyword: self.yes_no()?,
        label: self.label()?,
      },
      25 => StmtKind::Graph,
      26 => StmtKind::If {
        cond: self.expr()?,
        conseq: SmallVec(self.stmts()?),
        alt: if self.present()? { Some(SmallVec(self.stmts()?)) } else { None },
      },
      27 => StmtKind::InKey,
      28 => StmtKind::Input {
        source: match self.take_place(INPUT_SOURCE, 3)? {
          0 => InputSource::Keyboard(None),
          1 => InputSource::Keyboard(Some(self.range()?)),
          _ => InputSource::File(self.expr()?),
        },
        vars: self.exprs()?,
      },
      29 => StmtKind::Inverse,
      30 => StmtKind::Kill(self.range()?),
      31 => StmtKind::Let { var: self.expr()?, value: self.expr()? },
      32 => StmtKind::Line(self.exprs()?),
      33 => StmtKind::List(self.range()?),
      34 => StmtKind::Load(self.exprs()?),
      35 => StmtKind::Locate {
        row: self.expr_option()?,
        column: self.expr_option()?,
      },
      36 => StmtKind::LSet { var: self.expr()?, value: self.expr()? },
      37 => StmtKind::New(self.range()?),
      38 => StmtKind::Next { vars: SmallVec(self.list(Self::range_option)?) },
      39 => StmtKind::Normal,
      40 => StmtKind::NoTrace,
      41 => StmtKind::On {
        cond: self.expr()?,
        labels: NonEmptyVec::new(self.list(|r| {
          let range = r.range()?;
          let label = if r.present()? { Some(r.label_number()?) } else { None };
          Some((range, label))
        })?)?,
        is_sub: self.yes_no()?,
      },
      42 => StmtKind::Open {
        filename: self.expr()?,
        mode: FILE_MODES[self.take_place(FILE_MODE, 6)?],
        filenum: self.expr()?,
        len: if self.present()? {
          Some((self.range()?, self.expr()?))
        } else {
          None
        },
      },
      43 => StmtKind::Paint(self.exprs()?),
      44 => StmtKind::Play(self.expr()?),
      45 => StmtKind::Poke { addr: self.expr()?, value: self.expr()? },
      46 => StmtKind::Pop,
      47 => StmtKind::Print(SmallVec(self.list(|r| {
        Some(match r.take_place(PRINT_ELEMENT, 3)? {
          0 => PrintElement::Expr(r.expr()?),
          1 => PrintElement::Comma(r.range()?),
          _ => PrintElement::Semicolon(r.range()?),
        })
      })?)),
      48 => StmtKind::Put { filenum: self.expr()?, record: self.expr()? },
      49 => StmtKind::Read(self.exprs()?),
      50 => StmtKind::Rem(self.range()?),
      51 => StmtKind::Rename(self.range()?),
      52 => StmtKind::Restore(self.label()?),
      53 => StmtKind::Return,
      54 => StmtKind::RSet { var: self.expr()?, value: self.expr()? },
      55 => StmtKind::Run(self.range()?),
      56 => StmtKind::Save(self.range()?),
      57 => StmtKind::Stop(self.range()?),
      58 => StmtKind::Swap { left: self.expr()?, right: self.expr()? },
      59 => StmtKind::System,
      60 => StmtKind::Text,
      61 => StmtKind::Trace,
      62 => StmtKind::Wend,
      63 => StmtKind::While(self.expr()?),
      64 => StmtKind::Write {
        filenum: self.expr_option()?,
        data: NonEmptyVec::new(self.list(|r| {
          Some(WriteElement { datum: r.expr()?, comma: r.yes_no()? })
        })?)?,
      },
      65 => StmtKind::Sleep(self.expr()?),
      66 => StmtKind::Fputc { filenum: self.expr()?, value: self.expr()? },
      67 => StmtKind::Fread {
        filenum: self.expr()?,
        addr: self.expr()?,
        size: self.expr()?,
      },
      68 => StmtKind::Fwrite {
        filenum: self.expr()?,
        addr: self.expr()?,
        size: self.expr()?,
      },
      69 => StmtKind::Fseek { filenum: self.expr()?, offset: self.expr()? },
      70 => StmtKind::DebugPrint { value: self.expr()? },
      71 => StmtKind::NoOp,
      _ => return None,
    };
    Some(self.stmts.alloc(Stmt { kind, range }, None))
  }

  fn expr(&mut self) -> Option<ExprId> {
    let case = self.take(EXPR)?;
    let range = self.range()?;
    let mut value = None;
    let kind = match case {
      0 => ExprKind::Ident,
      1 => ExprKind::StringLit,
      2 => {
        let e = self.take_place(EXPONENT, 257)? as u32;
        let high = self.take_place(MANTISSA, 65536)? as u32;
        let low = self.take_place(MANTISSA, 65536)? as u32;
        value = Some(Value { e, m: high * 65536 + low });
        ExprKind::NumberLit
      }
      3 => ExprKind::SysFuncCall {
        func: (
          self.range()?,
          SYS_FUNCS[self.take_place(PLACE, SYS_FUNCS.len())?],
        ),
        args: self.exprs()?,
      },
      4 => {
        ExprKind::UserFuncCall { func: self.range_option()?, arg: self.expr()? }
      }
      5 => ExprKind::Binary {
        lhs: self.expr()?,
        op: (
          self.range()?,
          BINARY_OPS[self.take_place(PLACE, BINARY_OPS.len())?],
        ),
        rhs: self.expr()?,
      },
      6 => ExprKind::Unary {
        op: (
          self.range()?,
          UNARY_OPS[self.take_place(PLACE, UNARY_OPS.len())?],
        ),
        arg: self.expr()?,
      },
      7 => {
        ExprKind::Index { name: self.range_option()?, indices: self.exprs()? }
      }
      8 => ExprKind::Inkey,
      9 => ExprKind::Error,
      _ => return None,
    };
    Some(self.exprs.alloc(Expr::new(kind, range), value))
  }
}
