//! Goes through all the parts of a tree, in the sheet's order.

use crate::tree::*;

/// What a range is for.
#[derive(Clone, Copy, PartialEq, Eq)]
pub enum Use {
  /// To show where something stands.
  Place,
  /// Its units are a name, a number, a datum or a remark.
  Text,
  /// Its units are a text with its quotes, the last of which may be absent.
  Quoted,
}

/// What is done with the parts of a tree. A part is told before its own.
pub trait Visitor {
  fn stmt(&mut self, _: &mut Stmt) {}
  fn expr(&mut self, _: &mut Expr) {}
  fn range(&mut self, _: &mut Range, _: Use) {}
}

/// Does something with each statement.
pub struct EachStmt<F>(pub F);

impl<F: FnMut(&mut Stmt)> Visitor for EachStmt<F> {
  fn stmt(&mut self, stmt: &mut Stmt) {
    (self.0)(stmt);
  }
}

impl Program {
  pub fn visit(&mut self, visitor: &mut impl Visitor) {
    for line in &mut self.lines {
      line.visit(visitor);
    }
  }
}

impl Line {
  pub fn visit(&mut self, visitor: &mut impl Visitor) {
    label(&mut self.label, visitor);
    stmts(&mut self.stmts, visitor);
  }
}

fn label(label: &mut Label, visitor: &mut impl Visitor) {
  if let Some((range, _)) = label {
    visitor.range(range, Use::Place);
  }
}

fn name(name: &mut Option<Range>, visitor: &mut impl Visitor) {
  if let Some(range) = name {
    visitor.range(range, Use::Text);
  }
}

fn stmts(stmts: &mut [Stmt], visitor: &mut impl Visitor) {
  stmts.iter_mut().for_each(|part| stmt(part, visitor));
}

fn exprs<'a>(
  exprs: impl IntoIterator<Item = &'a mut Expr>,
  visitor: &mut impl Visitor,
) {
  exprs.into_iter().for_each(|part| expr(part, visitor));
}

fn stmt(stmt: &mut Stmt, visitor: &mut impl Visitor) {
  use StmtKind::*;
  visitor.stmt(stmt);
  visitor.range(&mut stmt.range, Use::Place);
  match &mut stmt.kind {
    word_alone!() | NoOp => {}
    remark!(text) | Run(text) => visitor.range(text, Use::Text),
    Box(args) | Circle(args) | Dim(args) | Draw(args) | Ellipse(args)
    | Line(args) | Load(args) | Paint(args) | Read(args) => {
      exprs(args, visitor)
    }
    Call(arg) | Close(arg) | Play(arg) | While(arg) | Sleep(arg)
    | DebugPrint(arg) => expr(arg, visitor),
    Let { var: a, value: b }
    | LSet { var: a, value: b }
    | RSet { var: a, value: b }
    | Get { filenum: a, record: b }
    | Put { filenum: a, record: b }
    | Poke { addr: a, value: b }
    | Swap { left: a, right: b }
    | Fputc { filenum: a, value: b }
    | Fseek { filenum: a, offset: b } => exprs([a, b], visitor),
    Fread { filenum, addr, size } | Fwrite { filenum, addr, size } => {
      exprs([filenum, addr, size], visitor)
    }
    GoSub(to) | Restore(to) | GoTo { label: to, .. } => label(to, visitor),
    Data(data) => {
      for datum in data {
        let quoted = if datum.quoted { Use::Quoted } else { Use::Text };
        visitor.range(&mut datum.range, quoted);
      }
    }
    Def { name: function, param, body } => {
      name(function, visitor);
      name(param, visitor);
      expr(body, visitor);
    }
    Field { filenum, fields } => {
      expr(filenum, visitor);
      let parts = fields.iter_mut().flat_map(|f| [&mut f.len, &mut f.var]);
      exprs(parts, visitor);
    }
    For { var, start, end, step } => {
      name(var, visitor);
      exprs([start, end], visitor);
      exprs(step, visitor);
    }
    If { cond, conseq, alt } => {
      expr(cond, visitor);
      stmts(conseq, visitor);
      stmts(alt.as_deref_mut().unwrap_or_default(), visitor);
    }
    Input { source, vars } => {
      match source {
        InputSource::Keyboard => {}
        InputSource::Prompt(prompt) => visitor.range(prompt, Use::Quoted),
        InputSource::File(filenum) => expr(filenum, visitor),
      }
      exprs(vars, visitor);
    }
    Locate { row, column } => {
      exprs(row, visitor);
      exprs(column, visitor);
    }
    Next(vars) => vars.iter_mut().for_each(|var| name(var, visitor)),
    On { cond, labels, .. } => {
      expr(cond, visitor);
      for (range, _) in labels {
        visitor.range(range, Use::Place);
      }
    }
    Open { filename, filenum, len, .. } => {
      exprs([filename, filenum], visitor);
      if let Some((range, len)) = len {
        visitor.range(range, Use::Place);
        expr(len, visitor);
      }
    }
    Print(elements) => {
      for element in elements {
        match element {
          PrintElement::Expr(part) => expr(part, visitor),
          PrintElement::Comma(range) | PrintElement::Semicolon(range) => {
            visitor.range(range, Use::Place)
          }
        }
      }
    }
    Write { filenum, data } => {
      exprs(filenum, visitor);
      exprs(data.iter_mut().map(|element| &mut element.datum), visitor);
    }
  }
}

fn expr(part: &mut Expr, visitor: &mut impl Visitor) {
  visitor.expr(part);
  let quoted = match part.kind {
    ExprKind::Ident | ExprKind::NumberLit(_) => Use::Text,
    ExprKind::StringLit => Use::Quoted,
    _ => Use::Place,
  };
  visitor.range(&mut part.range, quoted);
  match &mut part.kind {
    ExprKind::Ident
    | ExprKind::StringLit
    | ExprKind::NumberLit(_)
    | ExprKind::Inkey
    | ExprKind::Error => {}
    ExprKind::SysFuncCall { func, args } => {
      visitor.range(&mut func.0, Use::Place);
      exprs(args, visitor);
    }
    ExprKind::UserFuncCall { func, arg } => {
      name(func, visitor);
      expr(arg, visitor);
    }
    ExprKind::Binary { lhs, op, rhs } => {
      expr(lhs, visitor);
      visitor.range(&mut op.0, Use::Place);
      expr(rhs, visitor);
    }
    ExprKind::Unary { op, arg } => {
      visitor.range(&mut op.0, Use::Place);
      expr(arg, visitor);
    }
    ExprKind::Index { name: array, indices } => {
      name(array, visitor);
      exprs(indices, visitor);
    }
  }
}
