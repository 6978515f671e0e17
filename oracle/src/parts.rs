//! The wrapper's trees: what they say without the places where it stands, and
//! which kinds of statements and expressions they have.

use hollupsa::spelling::{FUNCTIONS, MODES, OPERATORS, PREFIXES, STATEMENTS};
use hollupsa::tree::*;
use hollupsa::walk::{Use, Visitor};
use std::fmt::{self, Display, Formatter};

// ------------------------------------------------------------------ meaning

/// What a tree says: itself without any place, and the texts in it in order.
#[derive(PartialEq, Debug)]
pub struct Said {
  pub program: Program,
  pub texts: Vec<Vec<u16>>,
}

pub fn said(program: &Program, units: &[u16]) -> Said {
  struct Texts<'a> {
    units: &'a [u16],
    texts: Vec<Vec<u16>>,
  }
  impl Visitor for Texts<'_> {
    fn range(&mut self, range: &mut Range, of: Use) {
      if of != Use::Place {
        let text = &self.units[range.start..range.end];
        self.texts.push(match of {
          Use::Quoted => inside_quotes(text).to_vec(),
          _ => text.to_vec(),
        });
      }
      *range = Range::default();
    }
  }
  let lines = program.lines_of(units);
  let mut program = program.clone();
  let mut texts = Texts { units: &[], texts: vec![] };
  for (line, (_, units)) in program.lines.iter_mut().zip(lines) {
    texts.units = units;
    line.visit(&mut texts);
    line.len = 0;
  }
  Said { program, texts: texts.texts }
}

fn inside_quotes(text: &[u16]) -> &[u16] {
  const QUOTE: u16 = b'"' as u16;
  match text {
    [QUOTE, inside @ .., QUOTE] | [QUOTE, inside @ ..] => inside,
    _ => text,
  }
}

// ------------------------------------------------------------------- counts

const EXPRS: [&str; 10] = [
  "name", "string", "number", "function", "FN", "operator", "sign", "element",
  "INKEY$", "missing",
];

const SOURCES: [&str; 3] = ["keyboard", "prompt", "file"];

const ELEMENTS: [&str; 3] = ["value", "comma", "semicolon"];

/// What is counted by itself.
#[derive(Clone, Copy)]
enum Sort {
  Stmts,
  Exprs,
  Functions,
  Operators,
  Prefixes,
  Modes,
  Sources,
  Elements,
}

/// The title of each sort and the names of its kinds, in the order of the
/// cases.
fn titles() -> [(&'static str, Vec<&'static str>); 8] {
  [
    ("statements", STATEMENTS.to_vec()),
    ("expressions", EXPRS.to_vec()),
    ("functions", FUNCTIONS.map(|row| row.0).to_vec()),
    ("operators", OPERATORS.map(|row| row.0).to_vec()),
    ("signs", PREFIXES.map(|row| row.0).to_vec()),
    ("modes", MODES.map(|row| row.0).to_vec()),
    ("sources of INPUT", SOURCES.to_vec()),
    ("elements of PRINT", ELEMENTS.to_vec()),
  ]
}

/// How often each kind stands in trees.
#[derive(Clone)]
pub struct Kinds([Vec<u64>; 8]);

impl Default for Kinds {
  fn default() -> Self {
    Self(titles().map(|(_, names)| vec![0; names.len()]))
  }
}

impl Kinds {
  pub fn count(&mut self, program: &Program) {
    program.clone().visit(self);
  }

  pub fn add(&mut self, other: &Self) {
    let mine = self.0.iter_mut().flatten();
    mine.zip(other.0.iter().flatten()).for_each(|(mine, other)| *mine += other);
  }

  fn see(&mut self, sort: Sort, kind: usize) {
    self.0[sort as usize][kind] += 1;
  }

  /// The kinds that count nothing.
  pub fn unseen(&self) -> Vec<&'static str> {
    let names = titles().into_iter().flat_map(|(_, names)| names);
    let counted = names.zip(self.0.iter().flatten());
    counted.filter(|(_, count)| **count == 0).map(|(name, _)| name).collect()
  }
}

impl Visitor for Kinds {
  fn stmt(&mut self, stmt: &mut Stmt) {
    self.see(Sort::Stmts, stmt.kind.case());
    match &stmt.kind {
      StmtKind::Open { mode, .. } => self.see(Sort::Modes, *mode as usize),
      StmtKind::Input { source, .. } => {
        let source = match source {
          InputSource::Keyboard => 0,
          InputSource::Prompt(_) => 1,
          InputSource::File(_) => 2,
        };
        self.see(Sort::Sources, source);
      }
      StmtKind::Print(elements) => {
        for element in elements {
          let element = match element {
            PrintElement::Expr(_) => 0,
            PrintElement::Comma(_) => 1,
            PrintElement::Semicolon(_) => 2,
          };
          self.see(Sort::Elements, element);
        }
      }
      _ => {}
    }
  }

  fn expr(&mut self, expr: &mut Expr) {
    self.see(Sort::Exprs, expr.kind.case());
    match &expr.kind {
      ExprKind::SysFuncCall { func, .. } => {
        self.see(Sort::Functions, func.1 as usize)
      }
      ExprKind::Binary { op, .. } => self.see(Sort::Operators, op.1 as usize),
      ExprKind::Unary { op, .. } => self.see(Sort::Prefixes, op.1 as usize),
      _ => {}
    }
  }
}

impl Display for Kinds {
  fn fmt(&self, f: &mut Formatter) -> fmt::Result {
    for ((title, names), counts) in titles().into_iter().zip(&self.0) {
      write!(f, "{title}:")?;
      for (at, (name, count)) in names.iter().zip(counts).enumerate() {
        let between = if at % 8 == 0 { "\n  " } else { ", " };
        write!(f, "{between}{name} {count}")?;
      }
      writeln!(f)?;
    }
    Ok(())
  }
}

// ------------------------------------------------------------ missing parts

/// Whether a part is missing that BASIC text cannot leave out.
pub fn is_missing_something(program: &Program) -> bool {
  struct Missing(bool);
  impl Visitor for Missing {
    fn stmt(&mut self, stmt: &mut Stmt) {
      self.0 |= match &stmt.kind {
        StmtKind::Def { name, param, .. } => name.is_none() || param.is_none(),
        StmtKind::For { var, .. } => var.is_none(),
        StmtKind::Next(vars) => vars.contains(&None),
        StmtKind::Open { mode, .. } => *mode == FileMode::Error,
        _ => false,
      };
    }

    fn expr(&mut self, expr: &mut Expr) {
      self.0 |= match &expr.kind {
        ExprKind::UserFuncCall { func, .. } => func.is_none(),
        kind => *kind == ExprKind::Error,
      };
    }
  }
  let mut missing = Missing(false);
  program.clone().visit(&mut missing);
  missing.0
}
