//! A tree as the words of a sheet. What does not fit its word (a line above
//! 4,095 units, a range that ends above that, an exponent) is written as a word
//! that the compiler refuses.

use crate::tree::*;
use crate::word::*;

impl Program {
  /// The sheet of this tree.
  pub fn encode(&self) -> Vec<u32> {
    let mut sheet = Sheet(vec![]);
    sheet.put(PROGRAM, self.lines.len());
    for line in &self.lines {
      sheet.put(LINE, line.len);
      sheet.label(&line.label);
      sheet.stmts(&line.stmts);
    }
    sheet.0
  }
}

struct Sheet(Vec<u32>);

impl Sheet {
  fn put(&mut self, kind: u32, payload: usize) {
    self.0.push(word(kind, payload));
  }

  fn range(&mut self, range: &Range) {
    self.0.push(range_word(range));
  }

  fn absent(&mut self) {
    self.put(ABSENT, 0);
  }

  fn range_option(&mut self, range: &Option<Range>) {
    match range {
      Some(range) => self.range(range),
      None => self.absent(),
    }
  }

  fn label(&mut self, label: &Label) {
    match label {
      Some((range, label)) => {
        self.range(range);
        self.put(LABEL, *label as usize);
      }
      None => self.absent(),
    }
  }

  fn count(&mut self, count: usize) {
    self.put(COUNT, count);
  }

  fn yes_no(&mut self, yes: bool) {
    self.put(YES_NO, yes as usize);
  }

  fn stmts(&mut self, stmts: &[Stmt]) {
    self.count(stmts.len());
    for stmt in stmts {
      self.stmt(stmt);
    }
  }

  fn exprs(&mut self, exprs: &[Expr]) {
    self.count(exprs.len());
    for expr in exprs {
      self.expr(expr);
    }
  }

  fn both(&mut self, a: &Expr, b: &Expr) {
    self.expr(a);
    self.expr(b);
  }

  fn expr_option(&mut self, expr: &Option<Expr>) {
    match expr {
      Some(expr) => self.expr(expr),
      None => self.absent(),
    }
  }

  fn stmt(&mut self, stmt: &Stmt) {
    use StmtKind::*;
    self.put(STMT, stmt.kind.case());
    self.range(&stmt.range);
    match &stmt.kind {
      word_alone!() | NoOp => {}
      remark!(text) | Run(text) => self.range(text),
      Box(args) | Circle(args) | Dim(args) | Draw(args) | Ellipse(args)
      | Line(args) | Load(args) | Paint(args) | Read(args) => self.exprs(args),
      Call(arg) | Close(arg) | Play(arg) | While(arg) | Sleep(arg)
      | DebugPrint(arg) => self.expr(arg),
      Let { var: a, value: b }
      | LSet { var: a, value: b }
      | RSet { var: a, value: b }
      | Get { filenum: a, record: b }
      | Put { filenum: a, record: b }
      | Poke { addr: a, value: b }
      | Swap { left: a, right: b }
      | Fputc { filenum: a, value: b }
      | Fseek { filenum: a, offset: b } => self.both(a, b),
      Fread { filenum, addr, size } | Fwrite { filenum, addr, size } => {
        self.expr(filenum);
        self.both(addr, size);
      }
      GoSub(label) | Restore(label) => self.label(label),
      GoTo { keyword, label } => {
        self.yes_no(*keyword);
        self.label(label);
      }
      Data(data) => {
        self.count(data.len());
        for datum in data {
          self.range(&datum.range);
          self.yes_no(datum.quoted);
        }
      }
      Def { name, param, body } => {
        self.range_option(name);
        self.range_option(param);
        self.expr(body);
      }
      Field { filenum, fields } => {
        self.expr(filenum);
        self.count(fields.len());
        for field in fields {
          self.both(&field.len, &field.var);
        }
      }
      For { var, start, end, step } => {
        self.range_option(var);
        self.both(start, end);
        self.expr_option(step);
      }
      If { cond, conseq, alt } => {
        self.expr(cond);
        self.stmts(conseq);
        match alt {
          Some(alt) => self.stmts(alt),
          None => self.absent(),
        }
      }
      Input { source, vars } => {
        match source {
          InputSource::Keyboard => self.put(INPUT_SOURCE, 0),
          InputSource::Prompt(prompt) => {
            self.put(INPUT_SOURCE, 1);
            self.range(prompt);
          }
          InputSource::File(filenum) => {
            self.put(INPUT_SOURCE, 2);
            self.expr(filenum);
          }
        }
        self.exprs(vars);
      }
      Locate { row, column } => {
        self.expr_option(row);
        self.expr_option(column);
      }
      Next(vars) => {
        self.count(vars.len());
        for var in vars {
          self.range_option(var);
        }
      }
      On { cond, labels, is_sub } => {
        self.expr(cond);
        self.count(labels.len());
        for (range, label) in labels {
          self.range(range);
          match label {
            Some(label) => self.put(LABEL, *label as usize),
            None => self.absent(),
          }
        }
        self.yes_no(*is_sub);
      }
      Open { filename, mode, filenum, len } => {
        self.expr(filename);
        self.put(FILE_MODE, *mode as usize);
        self.expr(filenum);
        match len {
          Some((range, len)) => {
            self.range(range);
            self.expr(len);
          }
          None => self.absent(),
        }
      }
      Print(elements) => {
        self.count(elements.len());
        for element in elements {
          self.element(element);
        }
      }
      Write { filenum, data } => {
        self.expr_option(filenum);
        self.count(data.len());
        for element in data {
          self.expr(&element.datum);
          self.yes_no(element.comma);
        }
      }
    }
  }

  fn element(&mut self, element: &PrintElement) {
    match element {
      PrintElement::Expr(expr) => {
        self.put(PRINT_ELEMENT, 0);
        self.expr(expr);
      }
      PrintElement::Comma(range) => {
        self.put(PRINT_ELEMENT, 1);
        self.range(range);
      }
      PrintElement::Semicolon(range) => {
        self.put(PRINT_ELEMENT, 2);
        self.range(range);
      }
    }
  }

  fn expr(&mut self, expr: &Expr) {
    self.put(EXPR, expr.kind.case());
    self.range(&expr.range);
    match &expr.kind {
      ExprKind::Ident
      | ExprKind::StringLit
      | ExprKind::Inkey
      | ExprKind::Error => {}
      ExprKind::NumberLit(number) => {
        self.put(EXPONENT, number.e as usize);
        self.put(MANTISSA, (number.m >> 16) as usize);
        self.put(MANTISSA, (number.m & 0xffff) as usize);
      }
      ExprKind::SysFuncCall { func, args } => {
        self.range(&func.0);
        self.put(PLACE, func.1 as usize);
        self.exprs(args);
      }
      ExprKind::UserFuncCall { func, arg } => {
        self.range_option(func);
        self.expr(arg);
      }
      ExprKind::Binary { lhs, op, rhs } => {
        self.expr(lhs);
        self.range(&op.0);
        self.put(PLACE, op.1 as usize);
        self.expr(rhs);
      }
      ExprKind::Unary { op, arg } => {
        self.range(&op.0);
        self.put(PLACE, op.1 as usize);
        self.expr(arg);
      }
      ExprKind::Index { name, indices } => {
        self.range_option(name);
        self.exprs(indices);
      }
    }
  }
}

impl StmtKind {
  /// The place of the case among the cases of stmt.rs, from 0.
  pub fn case(&self) -> usize {
    use StmtKind::*;
    match self {
      Auto(_) => 0,
      Beep => 1,
      Box(_) => 2,
      Call(_) => 3,
      Circle(_) => 4,
      Clear => 5,
      Close(_) => 6,
      Cls => 7,
      Cont => 8,
      Copy(_) => 9,
      Data(_) => 10,
      Def { .. } => 11,
      Del(_) => 12,
      Dim(_) => 13,
      Draw(_) => 14,
      Edit(_) => 15,
      Ellipse(_) => 16,
      End => 17,
      Field { .. } => 18,
      Files(_) => 19,
      Flash => 20,
      For { .. } => 21,
      Get { .. } => 22,
      GoSub(_) => 23,
      GoTo { .. } => 24,
      Graph => 25,
      If { .. } => 26,
      InKey => 27,
      Input { .. } => 28,
      Inverse => 29,
      Kill(_) => 30,
      Let { .. } => 31,
      Line(_) => 32,
      List(_) => 33,
      Load(_) => 34,
      Locate { .. } => 35,
      LSet { .. } => 36,
      New(_) => 37,
      Next(_) => 38,
      Normal => 39,
      NoTrace => 40,
      On { .. } => 41,
      Open { .. } => 42,
      Paint(_) => 43,
      Play(_) => 44,
      Poke { .. } => 45,
      Pop => 46,
      Print(_) => 47,
      Put { .. } => 48,
      Read(_) => 49,
      Rem(_) => 50,
      Rename(_) => 51,
      Restore(_) => 52,
      Return => 53,
      RSet { .. } => 54,
      Run(_) => 55,
      Save(_) => 56,
      Stop(_) => 57,
      Swap { .. } => 58,
      System => 59,
      Text => 60,
      Trace => 61,
      Wend => 62,
      While(_) => 63,
      Write { .. } => 64,
      Sleep(_) => 65,
      Fputc { .. } => 66,
      Fread { .. } => 67,
      Fwrite { .. } => 68,
      Fseek { .. } => 69,
      DebugPrint(_) => 70,
      NoOp => 71,
    }
  }
}

impl ExprKind {
  /// The place of the case among the cases of expr.rs, from 0.
  pub fn case(&self) -> usize {
    use ExprKind::*;
    match self {
      Ident => 0,
      StringLit => 1,
      NumberLit(_) => 2,
      SysFuncCall { .. } => 3,
      UserFuncCall { .. } => 4,
      Binary { .. } => 5,
      Unary { .. } => 6,
      Index { .. } => 7,
      Inkey => 8,
      Error => 9,
    }
  }
}
