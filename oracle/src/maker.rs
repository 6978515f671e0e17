//! Builds trees together with their text: each piece that is written gives
//! its range. Used by the generator and the fixed cases.

use crate::ast::*;
use crate::parser::ParseResult;
use crate::run::Input;
use crate::sheet;
use crate::standins::{Arena, SmallVec, Value};

pub const ZERO: Value = Value { e: 0, m: 0 };
pub const ONE: Value = Value { e: 129, m: 1 << 31 };
pub const TOO_LARGE: Value = Value { e: 256, m: 0 };

/// The value of `m` times 2^`-places`.
pub fn value(m: u64, places: u32) -> Value {
  if m == 0 {
    return ZERO;
  }
  let bits = 64 - m.leading_zeros();
  let m = if bits > 32 {
    assert_eq!(m & ((1 << (bits - 32)) - 1), 0, "no more than 32 bits");
    m >> (bits - 32)
  } else {
    m << (32 - bits)
  };
  Value { e: 128 + bits - places, m: m as u32 }
}

/// Decimal text of `m` times 2^`-places`, exact.
pub fn decimal(m: u64, places: u32) -> String {
  let whole = m >> places;
  let mut part = (m & ((1u64 << places) - 1)) as u128;
  if part == 0 {
    return whole.to_string();
  }
  let mut text = format!("{whole}.");
  while part != 0 {
    part *= 10;
    text += &(part >> places).to_string();
    part &= (1 << places) - 1;
  }
  text
}

/// The line being written.
pub struct LineMaker {
  pub units: Vec<u16>,
  stmts: Arena<Stmt>,
  exprs: Arena<Expr>,
}

impl LineMaker {
  pub fn new() -> Self {
    Self { units: vec![], stmts: Arena::new(), exprs: Arena::new() }
  }

  pub fn at(&self) -> usize {
    self.units.len()
  }

  pub fn put(&mut self, text: &str) -> Range {
    let start = self.at();
    self.units.extend(text.encode_utf16());
    Range::new(start, self.at())
  }

  pub fn put_units(&mut self, units: &[u16]) -> Range {
    let start = self.at();
    self.units.extend(units);
    Range::new(start, self.at())
  }

  pub fn since(&self, start: usize) -> Range {
    Range::new(start, self.at())
  }

  pub fn stmt(&mut self, kind: StmtKind, range: Range) -> StmtId {
    self.stmts.alloc(Stmt { kind, range }, None)
  }

  pub fn expr(&mut self, kind: ExprKind, range: Range) -> ExprId {
    self.exprs.alloc(Expr::new(kind, range), None)
  }

  // Expressions written in one piece.

  pub fn ident(&mut self, name: &str) -> ExprId {
    let range = self.put(name);
    self.expr(ExprKind::Ident, range)
  }

  /// A string literal, `text` with its quotes if it has any.
  pub fn string(&mut self, text: &str) -> ExprId {
    let range = self.put(text);
    self.expr(ExprKind::StringLit, range)
  }

  pub fn number(&mut self, text: &str, value: Value) -> ExprId {
    let range = self.put(text);
    self.number_at(range, value)
  }

  pub fn number_at(&mut self, range: Range, value: Value) -> ExprId {
    self.exprs.alloc(Expr::new(ExprKind::NumberLit, range), Some(value))
  }

  /// A whole number's literal.
  pub fn int(&mut self, n: u64) -> ExprId {
    self.number(&n.to_string(), value(n, 0))
  }

  /// A missing expression.
  pub fn missing(&mut self) -> ExprId {
    let range = self.since(self.at());
    self.expr(ExprKind::Error, range)
  }

  /// Ends the line.
  pub fn finish(
    self,
    label: Option<(Range, Label)>,
    stmts: Vec<StmtId>,
  ) -> MadeLine {
    let content = ProgramLine {
      source_len: self.units.len(),
      label,
      stmts: SmallVec(stmts),
    };
    let parsed = ParseResult {
      content,
      stmt_arena: self.stmts,
      expr_arena: self.exprs,
      diagnostics: vec![],
    };
    MadeLine { parsed, units: self.units }
  }
}

pub struct MadeLine {
  pub parsed: ParseResult<ProgramLine>,
  pub units: Vec<u16>,
}

/// A sheet and its text, with buffers of no length.
pub fn input_of(lines: Vec<MadeLine>) -> Input {
  let mut units = vec![];
  let mut prog = Program { lines: vec![] };
  for line in lines {
    units.extend(line.units);
    prog.lines.push(line.parsed);
  }
  Input { words: sheet::encode(&prog), units, ..Input::default() }
}
