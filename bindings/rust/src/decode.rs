//! The words of a sheet as a tree: encode.rs the other way round.

use crate::spelling::{FUNCTIONS, MODES, OPERATORS, PREFIXES};
use crate::tree::*;
use crate::word::*;

/// So many statements and expressions in each other are decoded; the compiler
/// takes 64.
const DEEPEST: usize = 200;

/// The case of the one statement that holds others.
const IF: usize = 26;

impl Program {
  /// The tree of a sheet; none where the words are no tree: a wrong kind, a
  /// payload outside its table, a word missing or left over, or parts nested
  /// more than 200 deep. Ranges and lines' lengths are not held against a text.
  pub fn decode(sheet: &[u32]) -> Option<Self> {
    let mut words = Words { sheet, at: 0, depth: 0 };
    let count = words.take(PROGRAM)?;
    let program = Self { lines: words.items(count, Words::line)? };
    (words.at == sheet.len()).then_some(program)
  }
}

struct Words<'a> {
  sheet: &'a [u32],
  at: usize,
  /// So many parts stand around the one that is decoded.
  depth: usize,
}

impl Words<'_> {
  /// The next word, if it is of the kind.
  fn word(&mut self, wanted: u32) -> Option<u32> {
    let word = *self.sheet.get(self.at)?;
    if kind(word) != wanted {
      return None;
    }
    self.at += 1;
    Some(word)
  }

  /// Its payload.
  fn take(&mut self, kind: u32) -> Option<usize> {
    self.word(kind).map(payload)
  }

  /// The same for a payload below `bound`.
  fn below(&mut self, kind: u32, bound: usize) -> Option<usize> {
    self.take(kind).filter(|payload| *payload < bound)
  }

  /// So many items. Each takes a word at least, so that a count that is too
  /// great ends with the words.
  fn items<T>(
    &mut self,
    count: usize,
    mut item: impl FnMut(&mut Self) -> Option<T>,
  ) -> Option<Vec<T>> {
    let mut items = vec![];
    for _ in 0..count {
      items.push(item(self)?);
    }
    Some(items)
  }

  fn list<T>(
    &mut self,
    item: impl FnMut(&mut Self) -> Option<T>,
  ) -> Option<Vec<T>> {
    let count = self.take(COUNT)?;
    self.items(count, item)
  }

  /// A list with an item at least.
  fn some<T>(
    &mut self,
    item: impl FnMut(&mut Self) -> Option<T>,
  ) -> Option<Vec<T>> {
    self.list(item).filter(|items| !items.is_empty())
  }

  /// An absent word, or what `item` takes.
  fn option<T>(
    &mut self,
    item: impl FnOnce(&mut Self) -> Option<T>,
  ) -> Option<Option<T>> {
    match kind(*self.sheet.get(self.at)?) {
      ABSENT => self.below(ABSENT, 1).map(|_| None),
      _ => item(self).map(Some),
    }
  }

  /// One part in another.
  fn deeper<T>(
    &mut self,
    item: impl FnOnce(&mut Self) -> Option<T>,
  ) -> Option<T> {
    if self.depth == DEEPEST {
      return None;
    }
    self.depth += 1;
    let item = item(self);
    self.depth -= 1;
    item
  }

  fn range(&mut self) -> Option<Range> {
    self.word(RANGE).map(range_of)
  }

  fn name(&mut self) -> Option<Option<Range>> {
    self.option(Self::range)
  }

  fn number(&mut self) -> Option<u16> {
    self.below(LABEL, 0x1_0000).map(|label| label as u16)
  }

  fn label(&mut self) -> Option<Label> {
    self.option(|words| Some((words.range()?, words.number()?)))
  }

  fn yes_no(&mut self) -> Option<bool> {
    self.below(YES_NO, 2).map(|yes| yes == 1)
  }

  fn line(&mut self) -> Option<Line> {
    let len = self.take(LINE)?;
    let label = self.label()?;
    Some(Line { len, label, stmts: self.list(Self::stmt)? })
  }

  fn exprs(&mut self) -> Option<Vec<Expr>> {
    self.some(Self::expr)
  }

  fn both(&mut self) -> Option<(Expr, Expr)> {
    Some((self.expr()?, self.expr()?))
  }

  fn stmt(&mut self) -> Option<Stmt> {
    let case = self.take(STMT)?;
    let range = self.range()?;
    let kind = match case {
      IF => self.deeper(Self::if_)?,
      _ => self.deeper(|words| words.stmt_kind(case))?,
    };
    Some(Stmt { range, kind })
  }

  /// The one statement that holds others, by itself: the stack that the rest
  /// take together is not taken for each IF in another.
  fn if_(&mut self) -> Option<StmtKind> {
    let cond = self.expr()?;
    let conseq = self.list(Self::stmt)?;
    let alt = self.option(|words| words.list(Self::stmt))?;
    Some(StmtKind::If { cond, conseq, alt })
  }

  fn stmt_kind(&mut self, case: usize) -> Option<StmtKind> {
    use StmtKind::*;
    Some(match case {
      0 => Auto(self.range()?),
      1 => Beep,
      2 => Box(self.exprs()?),
      3 => Call(self.expr()?),
      4 => Circle(self.exprs()?),
      5 => Clear,
      6 => Close(self.expr()?),
      7 => Cls,
      8 => Cont,
      9 => Copy(self.range()?),
      10 => Data(self.some(Self::datum)?),
      11 => Def { name: self.name()?, param: self.name()?, body: self.expr()? },
      12 => Del(self.range()?),
      13 => Dim(self.exprs()?),
      14 => Draw(self.exprs()?),
      15 => Edit(self.range()?),
      16 => Ellipse(self.exprs()?),
      17 => End,
      18 => {
        let filenum = self.expr()?;
        Field { filenum, fields: self.some(Self::field)? }
      }
      19 => Files(self.range()?),
      20 => Flash,
      21 => {
        let var = self.name()?;
        let (start, end) = self.both()?;
        For { var, start, end, step: self.option(Self::expr)? }
      }
      22 => {
        let (filenum, record) = self.both()?;
        Get { filenum, record }
      }
      23 => GoSub(self.label()?),
      24 => GoTo { keyword: self.yes_no()?, label: self.label()? },
      25 => Graph,
      27 => InKey,
      28 => {
        let source = self.input_source()?;
        Input { source, vars: self.exprs()? }
      }
      29 => Inverse,
      30 => Kill(self.range()?),
      31 => {
        let (var, value) = self.both()?;
        Let { var, value }
      }
      32 => Line(self.exprs()?),
      33 => List(self.range()?),
      34 => Load(self.exprs()?),
      35 => {
        let row = self.option(Self::expr)?;
        Locate { row, column: self.option(Self::expr)? }
      }
      36 => {
        let (var, value) = self.both()?;
        LSet { var, value }
      }
      37 => New(self.range()?),
      38 => Next(self.list(Self::name)?),
      39 => Normal,
      40 => NoTrace,
      41 => {
        let cond = self.expr()?;
        let labels = self.some(Self::jump)?;
        On { cond, labels, is_sub: self.yes_no()? }
      }
      42 => {
        let filename = self.expr()?;
        let mode = MODES[self.below(FILE_MODE, MODES.len())?].1;
        let filenum = self.expr()?;
        let len = self.option(|words| Some((words.range()?, words.expr()?)))?;
        Open { filename, mode, filenum, len }
      }
      43 => Paint(self.exprs()?),
      44 => Play(self.expr()?),
      45 => {
        let (addr, value) = self.both()?;
        Poke { addr, value }
      }
      46 => Pop,
      47 => Print(self.list(Self::print_element)?),
      48 => {
        let (filenum, record) = self.both()?;
        Put { filenum, record }
      }
      49 => Read(self.exprs()?),
      50 => Rem(self.range()?),
      51 => Rename(self.range()?),
      52 => Restore(self.label()?),
      53 => Return,
      54 => {
        let (var, value) = self.both()?;
        RSet { var, value }
      }
      55 => Run(self.range()?),
      56 => Save(self.range()?),
      57 => Stop(self.range()?),
      58 => {
        let (left, right) = self.both()?;
        Swap { left, right }
      }
      59 => System,
      60 => Text,
      61 => Trace,
      62 => Wend,
      63 => While(self.expr()?),
      64 => {
        let filenum = self.option(Self::expr)?;
        Write { filenum, data: self.some(Self::write_element)? }
      }
      65 => Sleep(self.expr()?),
      66 => {
        let (filenum, value) = self.both()?;
        Fputc { filenum, value }
      }
      67 => {
        let (filenum, addr) = self.both()?;
        Fread { filenum, addr, size: self.expr()? }
      }
      68 => {
        let (filenum, addr) = self.both()?;
        Fwrite { filenum, addr, size: self.expr()? }
      }
      69 => {
        let (filenum, offset) = self.both()?;
        Fseek { filenum, offset }
      }
      70 => DebugPrint(self.expr()?),
      71 => NoOp,
      _ => return None,
    })
  }

  fn datum(&mut self) -> Option<Datum> {
    Some(Datum { range: self.range()?, quoted: self.yes_no()? })
  }

  fn field(&mut self) -> Option<Field> {
    Some(Field { len: self.expr()?, var: self.expr()? })
  }

  fn input_source(&mut self) -> Option<InputSource> {
    Some(match self.below(INPUT_SOURCE, 3)? {
      0 => InputSource::Keyboard,
      1 => InputSource::Prompt(self.range()?),
      _ => InputSource::File(self.expr()?),
    })
  }

  fn jump(&mut self) -> Option<(Range, Option<u16>)> {
    Some((self.range()?, self.option(Self::number)?))
  }

  fn print_element(&mut self) -> Option<PrintElement> {
    Some(match self.below(PRINT_ELEMENT, 3)? {
      0 => PrintElement::Expr(self.expr()?),
      1 => PrintElement::Comma(self.range()?),
      _ => PrintElement::Semicolon(self.range()?),
    })
  }

  fn write_element(&mut self) -> Option<WriteElement> {
    Some(WriteElement { datum: self.expr()?, comma: self.yes_no()? })
  }

  fn expr(&mut self) -> Option<Expr> {
    let case = self.take(EXPR)?;
    let range = self.range()?;
    let kind = self.deeper(|words| words.expr_kind(case))?;
    Some(Expr { range, kind })
  }

  fn expr_kind(&mut self, case: usize) -> Option<ExprKind> {
    Some(match case {
      0 => ExprKind::Ident,
      1 => ExprKind::StringLit,
      2 => ExprKind::NumberLit(self.value()?),
      3 => {
        let range = self.range()?;
        let func = FUNCTIONS[self.below(PLACE, FUNCTIONS.len())?].1;
        ExprKind::SysFuncCall { func: (range, func), args: self.exprs()? }
      }
      4 => {
        let func = self.name()?;
        ExprKind::UserFuncCall { func, arg: Box::new(self.expr()?) }
      }
      5 => {
        let lhs = Box::new(self.expr()?);
        let range = self.range()?;
        let op = OPERATORS[self.below(PLACE, OPERATORS.len())?].1;
        let rhs = Box::new(self.expr()?);
        ExprKind::Binary { lhs, op: (range, op), rhs }
      }
      6 => {
        let range = self.range()?;
        let op = PREFIXES[self.below(PLACE, PREFIXES.len())?].1;
        ExprKind::Unary { op: (range, op), arg: Box::new(self.expr()?) }
      }
      7 => {
        let name = self.name()?;
        ExprKind::Index { name, indices: self.exprs()? }
      }
      8 => ExprKind::Inkey,
      9 => ExprKind::Error,
      _ => return None,
    })
  }

  /// A literal's value: m is 0 at e 0 and 256, at least 2^31 between.
  fn value(&mut self) -> Option<Number> {
    let e = self.below(EXPONENT, 257)? as u32;
    let high = self.below(MANTISSA, 0x1_0000)? as u32;
    let low = self.below(MANTISSA, 0x1_0000)? as u32;
    let m = (high << 16) + low;
    let right = if e == 0 || e == 256 { m == 0 } else { m >= 1 << 31 };
    right.then_some(Number { e, m })
  }
}

#[cfg(test)]
mod tests {
  use super::*;
  use crate::basic;
  use crate::spelling::{REMARKS, STATEMENTS, WORDS_ALONE};

  /// The first statement of a text.
  fn read(text: &str) -> StmtKind {
    let mut program = basic::read(text).program;
    assert_eq!(Program::decode(&program.encode()), Some(program.clone()));
    program.lines.remove(0).stmts.remove(0).kind
  }

  /// The numbers of the cases in encode.rs and here are the places of the words
  /// in the table.
  #[test]
  fn each_statement_has_the_place_of_its_word() {
    assert_eq!(STATEMENTS[IF], "IF");
    for (place, word) in STATEMENTS.iter().enumerate() {
      let is_last = place + 1 == STATEMENTS.len();
      let kind = read(if is_last { ":" } else { word });
      assert_eq!(STATEMENTS[kind.case()], *word);
      assert_eq!(is_last, kind == StmtKind::NoOp);
      let is_remark = REMARKS.iter().any(|(remark, _)| remark == word);
      assert_eq!(is_remark, matches!(kind, remark!(_)));
      let is_alone = WORDS_ALONE.iter().any(|(alone, _)| alone == word);
      assert_eq!(is_alone, matches!(kind, word_alone!()));
    }
  }
  /// Each row of the other tables stands at the number of its case.
  #[test]
  fn each_row_stands_at_its_case() {
    let functions = FUNCTIONS.map(|(_, func)| func as usize);
    assert!(functions.into_iter().eq(0..FUNCTIONS.len()));
    let operators = OPERATORS.map(|(_, op)| op as usize);
    assert!(operators.into_iter().eq(0..OPERATORS.len()));
    let prefixes = PREFIXES.map(|(_, op)| op as usize);
    assert!(prefixes.into_iter().eq(0..PREFIXES.len()));
    let modes = MODES.map(|(_, mode)| mode as usize);
    assert!(modes.into_iter().eq(0..MODES.len()));
  }
}
