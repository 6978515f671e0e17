//! Expressions. How tightly operators bind is `spelling::binding`; signs and
//! NOT bind tighter than all of them.

use super::Reader;
use super::words::{self, is_digit, past_spaces};
use crate::spelling::{FUNCTIONS, OPERATORS, PREFIXES, binding};
use crate::tree::{BinaryOp, Expr, ExprKind, Number, Range, SysFunc, UnaryOp};

/// An expression, and how many nodes stand in each other in it. The tree of
/// `1+1+1+..` grows to the left without an end.
struct Tall {
  expr: Expr,
  height: usize,
}

impl Tall {
  fn leaf(range: Range, kind: ExprKind) -> Self {
    Self { expr: Expr { range, kind }, height: 1 }
  }
}

/// No deeper tree is built: the compiler takes none.
const TALLEST: usize = 64;

/// What says that a value is missing.
const VALUE: &str = "a value";

impl Reader<'_> {
  /// An expression. A missing one is told.
  pub(super) fn expr(&mut self) -> Expr {
    self.tall().expr
  }

  pub(super) fn exprs(&mut self) -> Vec<Expr> {
    let mut exprs = vec![self.expr()];
    while self.takes(",").is_some() {
      exprs.push(self.expr());
    }
    exprs
  }

  /// A missing expression.
  pub(super) fn missing(&self) -> Expr {
    Expr { range: self.behind(), kind: ExprKind::Error }
  }

  fn missing_leaf(&self) -> Tall {
    Tall { expr: self.missing(), height: 1 }
  }

  fn tall(&mut self) -> Tall {
    self.deeper(Self::missing_leaf, |reader| reader.binary(1))
  }

  /// Operands with operators between that bind at least so tightly.
  fn binary(&mut self, least: usize) -> Tall {
    let mut lhs = self.operand();
    while let Some((range, op)) = self.operator(least) {
      self.warn_of_sign(&lhs.expr, range, op);
      let rhs = self.binary(binding(op) + 1);
      lhs = self.joined(lhs, (range, op), rhs);
    }
    lhs
  }

  fn joined(&mut self, lhs: Tall, op: (Range, BinaryOp), rhs: Tall) -> Tall {
    let height = 1 + lhs.height.max(rhs.height);
    if height > TALLEST {
      let hint = "take it apart with variables";
      if !self.failed {
        self.error(op.0, "too many operators in a row", Some(hint));
      }
      self.failed = true;
      return self.missing_leaf();
    }
    let (lhs, rhs) = (Box::new(lhs.expr), Box::new(rhs.expr));
    let range = Range { start: lhs.range.start, end: rhs.range.end };
    let kind = ExprKind::Binary { lhs, op, rhs };
    Tall { expr: Expr { range, kind }, height }
  }

  /// Takes an operator that binds at least so tightly.
  fn operator(&mut self, least: usize) -> Option<(Range, BinaryOp)> {
    if self.failed {
      return None;
    }
    let (end, op) = self.operator_here()?;
    if binding(op) < least {
      return None;
    }
    self.warn_glued();
    Some((self.take(end), op))
  }

  /// The operator that stands here, and where it ends.
  fn operator_here(&mut self) -> Option<(usize, BinaryOp)> {
    if let Some(word) = self.word() {
      let (text, op) = OPERATORS.iter().find(|(text, _)| *text == word.text)?;
      return Some((self.at + text.len(), *op));
    }
    let first = self.at;
    let next = past_spaces(self.units, (first + 1).min(self.units.len()));
    let sign = |at: usize| self.units.get(at).map_or(0, |&unit| unit);
    let signs = [sign(first), sign(next)];
    for (text, op) in &OPERATORS {
      let fits = match text.as_bytes() {
        [a, b] => signs == [*a as u16, *b as u16],
        _ => false,
      };
      if fits {
        return Some((next + 1, *op));
      }
    }
    self.wrong_comparison(signs, next + 1);
    let one = |text: &str| text.bytes().eq([signs[0]].map(|u| u as u8));
    let is_ascii = signs[0] < 128;
    let (_, op) = OPERATORS.iter().find(|(text, _)| is_ascii && one(text))?;
    Some((first + 1, *op))
  }

  /// `=<`, `=>` and `><` are no signs of the dialect.
  fn wrong_comparison(&mut self, signs: [u16; 2], end: usize) {
    let instead = match signs.map(|unit| unit as u8) {
      [b'=', b'<'] => "<=",
      [b'=', b'>'] => ">=",
      [b'>', b'<'] => "<>",
      _ => return,
    };
    if signs.iter().all(|unit| *unit < 128) {
      let range = Range { start: self.at, end };
      self.error(range, format!("put {instead} here"), None);
      self.failed = true;
    }
  }

  /// A sign or NOT binds tighter than what stands behind its operand; in other
  /// dialects it does not.
  fn warn_of_sign(&mut self, lhs: &Expr, range: Range, op: BinaryOp) {
    let Some((start, prefix)) = weaker_elsewhere(last_operand(lhs), op) else {
      return;
    };
    let read = self.shown(Range { start, end: range.start });
    let (read, sign) = (read.trim_end(), self.text(range));
    let word = if prefix == UnaryOp::Neg { "the sign" } else { "NOT" };
    self.warning(
      Range { start, end: range.end },
      format!("{word} is taken before {sign}: read as ({read}) {sign} .."),
      Some("put parentheses around what is meant".to_string()),
    );
  }

  /// One value, with the signs before it.
  fn operand(&mut self) -> Tall {
    if self.failed {
      return self.missing_leaf();
    }
    if let Some(op) = self.prefix() {
      let start = op.0.start;
      let arg = self.deeper(Self::missing_leaf, Self::operand);
      let range = Range { start, end: arg.expr.range.end };
      let kind = ExprKind::Unary { op, arg: Box::new(arg.expr) };
      return Tall { expr: Expr { range, kind }, height: arg.height + 1 };
    }
    self.blanks();
    let start = self.at;
    match self.peek() {
      '"' => {
        let range = self.quoted();
        Tall::leaf(range, ExprKind::StringLit)
      }
      '0'..='9' | '.' => self.number(),
      '(' => self.parenthesised(start),
      _ => self.named(start),
    }
  }

  fn prefix(&mut self) -> Option<(Range, UnaryOp)> {
    PREFIXES.iter().find_map(|&(text, op)| {
      let taken = match op {
        UnaryOp::Not => self.takes_not(text),
        UnaryOp::Neg | UnaryOp::Pos => self.takes(text),
      };
      Some((taken?, op))
    })
  }

  /// NOT; where letters stand directly behind it that is told.
  fn takes_not(&mut self, word: &'static str) -> Option<Range> {
    let range = self.takes_word(word)?;
    let end = words::run_end(self.units, range.end);
    let begins = |unit: &u16| words::is_letter(*unit);
    if self.units.get(range.end).is_some_and(begins) {
      let run = Range { start: range.start, end };
      let name = self.shown(run);
      self.warning(
        run,
        format!("{name} is read as {word} and what follows"),
        Some(format!(
          "put a blank behind {word}, or choose another name if one was meant"
        )),
      );
    }
    Some(range)
  }

  /// From a quote to the next one or the line's end.
  pub(super) fn quoted(&mut self) -> Range {
    let inside = &self.units[self.at + 1..];
    match inside.iter().position(|&unit| unit == b'"' as u16) {
      Some(count) => self.take(self.at + count + 2),
      None => {
        let range = self.take(self.units.len());
        let message =
          "this text has no closing quote: it goes to the line's end";
        self.warning(range, message, Some("put a quote".to_string()));
        range
      }
    }
  }

  fn parenthesised(&mut self, start: usize) -> Tall {
    self.take(start + 1);
    let mut inner = self.tall();
    self.needs(")");
    if !inner.expr.kind.is_said_by_range() {
      inner.expr.range = self.since(start);
    }
    inner
  }

  // ------------------------------------------------------------ numbers

  fn number(&mut self) -> Tall {
    let Some(end) = number_end(self.units, self.at) else {
      self.fail("a number's digits");
      return self.missing_leaf();
    };
    let range = self.take(end);
    self.warn_of_blanks(range);
    // Digits, a point and an exponent always have a value.
    let value = number_value(&self.text(range)).unwrap_or(Number::ZERO);
    self.look_behind_number();
    Tall::leaf(range, ExprKind::NumberLit(value))
  }

  /// Blanks inside a number are left out; two numbers may be meant.
  fn warn_of_blanks(&mut self, number: Range) {
    let text = self.shown(number);
    if text.contains(' ') {
      let whole = text.replace(' ', "");
      self.warning(
        number,
        format!("blank inside a number: read as {whole}"),
        Some("write it without the blank, or put a comma".to_string()),
      );
    }
  }

  /// What stands behind a number without a blank, and looks like its part.
  fn look_behind_number(&mut self) {
    if self.peek() == '.' {
      self.fail_with("an operator", Some("a number has one point"));
    } else if matches!(self.peek(), 'E' | 'e') && self.word().is_none() {
      let hint = "digits have to stand behind the E of a number";
      self.fail_with("an operator", Some(hint));
    }
  }

  // ------------------------------------------------------------ words

  fn named(&mut self, start: usize) -> Tall {
    if let Some(word) = self.word() {
      if word.text == "INKEY$" {
        self.warn_glued();
        let range = self.take(start + word.text.len());
        return Tall::leaf(range, ExprKind::Inkey);
      }
      if word.text == "FN" {
        return self.user_func(start);
      }
      let function = FUNCTIONS.iter().find(|(text, _)| *text == word.text);
      if let Some(&(text, func)) = function {
        return self.sys_func(start, text, func);
      }
    }
    match self.takes_name() {
      Some(name) => self.variable(name),
      None => {
        self.wants_name(VALUE);
        self.missing_leaf()
      }
    }
  }

  /// A variable, or an element of an array.
  fn variable(&mut self, name: Range) -> Tall {
    if self.takes("(").is_none() {
      self.warn_of_foreign(name);
      return Tall::leaf(name, ExprKind::Ident);
    }
    self.warn_of_function(name);
    let (indices, height) = self.arguments();
    let kind = ExprKind::Index { name: Some(name), indices };
    Tall { expr: Expr { range: self.since(name.start), kind }, height }
  }

  /// Warns of a variable whose name is a word of other dialects.
  fn warn_of_foreign(&mut self, name: Range) {
    let hint = match self.text(name).as_str() {
      "USING" => "PRINT has no USING",
      "INKEY" => "the key that is pressed is INKEY$",
      _ => return,
    };
    let message = format!("{} is read as a variable", self.text(name));
    self.warning(name, message, Some(hint.to_string()));
  }

  /// Warns of an array whose name is that of a function without its $.
  fn warn_of_function(&mut self, name: Range) {
    let array = self.shown(name);
    let function = format!("{array}$");
    if FUNCTIONS.iter().any(|(text, _)| *text == function) {
      self.warning(
        name,
        format!("{array} is read as an array"),
        Some(format!("the function is {function}")),
      );
    }
  }

  fn sys_func(&mut self, start: usize, text: &str, func: SysFunc) -> Tall {
    self.warn_glued();
    let no_name = self.no_name_hint();
    let range = self.take(start + text.len());
    if self.takes("(").is_none() {
      let hint = no_name.unwrap_or(format!(
        "{text} is a function and takes its values in parentheses"
      ));
      self.fail_with("(", Some(&hint));
    }
    let (args, height) = self.arguments();
    let kind = ExprKind::SysFuncCall { func: (range, func), args };
    Tall { expr: Expr { range: self.since(start), kind }, height }
  }

  /// Values with commas between, up to the closing parenthesis; and the height
  /// of what holds them.
  fn arguments(&mut self) -> (Vec<Expr>, usize) {
    let (mut args, mut height) = (vec![], 0);
    loop {
      let arg = self.tall();
      height = height.max(arg.height);
      args.push(arg.expr);
      if self.takes(",").is_none() {
        break;
      }
    }
    self.needs(")");
    (args, height + 1)
  }

  pub(super) fn user_func_call(&mut self) -> Expr {
    self.blanks();
    self.user_func(self.at).expr
  }

  fn user_func(&mut self, start: usize) -> Tall {
    self.take(start + "FN".len());
    let func = self.name("a function's name");
    self.needs("(");
    let arg = self.tall();
    self.needs(")");
    let (height, arg) = (arg.height + 1, Box::new(arg.expr));
    let kind = ExprKind::UserFuncCall { func, arg };
    Tall { expr: Expr { range: self.since(start), kind }, height }
  }

  /// What is assigned: a variable or an element of an array.
  pub(super) fn place(&mut self) -> Expr {
    if self.failed {
      return self.missing();
    }
    let place = |reader: &mut Self| match reader.takes_name() {
      Some(name) => reader.variable(name).expr,
      None => {
        reader.wants_name("a variable");
        reader.missing()
      }
    };
    self.deeper(Self::missing, place)
  }

  pub(super) fn places(&mut self) -> Vec<Expr> {
    let mut places = vec![self.place()];
    while self.takes(",").is_some() {
      places.push(self.place());
    }
    places
  }

  /// Whether a value begins here.
  pub(super) fn value_begins(&mut self) -> bool {
    self.blanks();
    if matches!(self.peek(), '"' | '0'..='9' | '.' | '(' | '+' | '-') {
      return true;
    }
    let is_letter = self.peek().is_ascii_alphabetic();
    is_letter && self.word().is_none_or(|word| word.sort == words::Sort::Value)
  }
}

/// The last operand of an expression, if no parentheses stand around it.
fn last_operand(expr: &Expr) -> &Expr {
  match &expr.kind {
    ExprKind::Binary { lhs, rhs, .. }
      if lhs.range.start == expr.range.start
        && rhs.range.end == expr.range.end =>
    {
      last_operand(rhs)
    }
    _ => expr,
  }
}

/// The sign or NOT of an operand that other dialects bind weaker than an
/// operator behind it, with its place.
fn weaker_elsewhere(operand: &Expr, op: BinaryOp) -> Option<(usize, UnaryOp)> {
  let ExprKind::Unary { op: (range, prefix), arg } = &operand.kind else {
    return None;
  };
  if range.start != operand.range.start {
    // Parentheses stand around it.
    return None;
  }
  let differs = match prefix {
    UnaryOp::Neg => op == BinaryOp::Pow,
    UnaryOp::Not => !matches!(op, BinaryOp::And | BinaryOp::Or),
    UnaryOp::Pos => false,
  };
  match differs {
    true => Some((range.start, *prefix)),
    false => weaker_elsewhere(arg, op),
  }
}

/// Where the number ends that begins at `start`, without blanks behind it; None
/// if it has no digit.
pub(crate) fn number_end(units: &[u16], start: usize) -> Option<usize> {
  let (mut end, mut digits, mut points) = (start, 0, 0);
  loop {
    let at = past_spaces(units, end);
    match units.get(at) {
      Some(&unit) if is_digit(unit) => digits += 1,
      Some(&unit) if unit == b'.' as u16 && points == 0 => points = 1,
      _ => break,
    }
    end = at + 1;
  }
  if digits == 0 {
    return None;
  }
  Some(exponent_end(units, end).unwrap_or(end))
}

/// Where the exponent ends that stands behind a number's digits, if there is
/// one.
fn exponent_end(units: &[u16], start: usize) -> Option<usize> {
  let mut at = past_spaces(units, start);
  if !words::begins(&units[at..], "E") || words::word_at(&units[at..]).is_some()
  {
    return None;
  }
  at = past_spaces(units, at + 1);
  if units.get(at).is_some_and(|&u| u == b'+' as u16 || u == b'-' as u16) {
    at = past_spaces(units, at + 1);
  }
  let mut end = None;
  while units.get(at).is_some_and(|&unit| is_digit(unit)) {
    end = Some(at + 1);
    at = past_spaces(units, at + 1);
  }
  end
}

/// The value of a number's text, blanks taken out.
pub(crate) fn number_value(text: &str) -> Option<Number> {
  text.replace(' ', "").parse::<f64>().ok().map(Number::from)
}
