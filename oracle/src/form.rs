//! The form: refusals 1 to 8 and their places, by document 01 and READINGS,
//! independent of `sheet`. The fields of each case are one table of shapes,
//! walked from left to right; the first offence found is the earliest, since
//! every rule's place is at most one word behind what has been read.

use crate::sheet::{kind, payload};

/// A refusal and its place.
#[derive(Clone, Copy, PartialEq, Eq, Debug)]
pub struct Refusal {
  pub number: u32,
  pub place: usize,
}

/// What may stand at a place of the sheet.
enum Shape {
  /// A plain range.
  Span,
  /// A range that is a name, or absent.
  NameOption,
  YesNo,
  Mode,
  /// 09 with a place below the number.
  Place(u32),
  /// Range and label, or absent.
  LabelOption,
  /// 03 or absent: the label of an ON's item.
  BareLabelOption,
  /// Any expression; an assigned place; what INPUT takes.
  Expr,
  Assigned,
  InputVar,
  ExprOption,
  Stmts,
  StmtsOption,
  /// LEN: range and expression, or absent.
  LenOption,
  /// A datum: range and 05, with a unit if quoted.
  Datum,
  /// 07 and what follows it.
  Source,
  /// 08 and what follows it.
  Element,
  /// A count and so many times the shapes; `Some` wants at least one.
  List(&'static [Shape]),
  Some(&'static [Shape]),
}

use Shape::*;

const EXPRS: Shape = Some(&[Expr]);

/// The fields of each case of StmtKind behind its range.
#[rustfmt::skip]
static STMTS: [&[Shape]; 72] = [
  /*  0 Auto    */ &[Span],
  /*  1 Beep    */ &[],
  /*  2 Box     */ &[EXPRS],
  /*  3 Call    */ &[Expr],
  /*  4 Circle  */ &[EXPRS],
  /*  5 Clear   */ &[],
  /*  6 Close   */ &[Expr],
  /*  7 Cls     */ &[],
  /*  8 Cont    */ &[],
  /*  9 Copy    */ &[Span],
  /* 10 Data    */ &[Some(&[Datum])],
  /* 11 Def     */ &[NameOption, NameOption, Expr],
  /* 12 Del     */ &[Span],
  /* 13 Dim     */ &[EXPRS],
  /* 14 Draw    */ &[EXPRS],
  /* 15 Edit    */ &[Span],
  /* 16 Ellipse */ &[EXPRS],
  /* 17 End     */ &[],
  /* 18 Field   */ &[Expr, Some(&[Expr, Assigned])],
  /* 19 Files   */ &[Span],
  /* 20 Flash   */ &[],
  /* 21 For     */ &[NameOption, Expr, Expr, ExprOption],
  /* 22 Get     */ &[Expr, Expr],
  /* 23 GoSub   */ &[LabelOption],
  /* 24 GoTo    */ &[YesNo, LabelOption],
  /* 25 Graph   */ &[],
  /* 26 If      */ &[Expr, Stmts, StmtsOption],
  /* 27 InKey   */ &[],
  /* 28 Input   */ &[Source, Some(&[InputVar])],
  /* 29 Inverse */ &[],
  /* 30 Kill    */ &[Span],
  /* 31 Let     */ &[Assigned, Expr],
  /* 32 Line    */ &[EXPRS],
  /* 33 List    */ &[Span],
  /* 34 Load    */ &[EXPRS],
  /* 35 Locate  */ &[ExprOption, ExprOption],
  /* 36 LSet    */ &[Assigned, Expr],
  /* 37 New     */ &[Span],
  /* 38 Next    */ &[List(&[NameOption])],
  /* 39 Normal  */ &[],
  /* 40 NoTrace */ &[],
  /* 41 On      */ &[Expr, Some(&[Span, BareLabelOption]), YesNo],
  /* 42 Open    */ &[Expr, Mode, Expr, LenOption],
  /* 43 Paint   */ &[EXPRS],
  /* 44 Play    */ &[Expr],
  /* 45 Poke    */ &[Expr, Expr],
  /* 46 Pop     */ &[],
  /* 47 Print   */ &[List(&[Element])],
  /* 48 Put     */ &[Expr, Expr],
  /* 49 Read    */ &[Some(&[Assigned])],
  /* 50 Rem     */ &[Span],
  /* 51 Rename  */ &[Span],
  /* 52 Restore */ &[LabelOption],
  /* 53 Return  */ &[],
  /* 54 RSet    */ &[Assigned, Expr],
  /* 55 Run     */ &[Span],
  /* 56 Save    */ &[Span],
  /* 57 Stop    */ &[Span],
  /* 58 Swap    */ &[Assigned, Assigned],
  /* 59 System  */ &[],
  /* 60 Text    */ &[],
  /* 61 Trace   */ &[],
  /* 62 Wend    */ &[],
  /* 63 While   */ &[Expr],
  /* 64 Write   */ &[ExprOption, Some(&[Expr, YesNo])],
  /* 65 Sleep   */ &[Expr],
  /* 66 Fputc   */ &[Expr, Expr],
  /* 67 Fread   */ &[Expr, Expr, Expr],
  /* 68 Fwrite  */ &[Expr, Expr, Expr],
  /* 69 Fseek   */ &[Expr, Expr],
  /* 70 Debug.. */ &[Expr],
  /* 71 NoOp    */ &[],
];

const FSEEK: u32 = 69;
const DEEPEST: usize = 64;

/// The fields of each case of ExprKind behind its range, NumberLit's apart.
static EXPR_FIELDS: [&[Shape]; 10] = [
  /* Ident        */ &[],
  /* StringLit    */ &[],
  /* NumberLit    */ &[],
  /* SysFuncCall  */ &[Span, Place(34), EXPRS],
  /* UserFuncCall */ &[NameOption, Expr],
  /* Binary       */ &[Expr, Span, Place(13), Expr],
  /* Unary        */ &[Span, Place(3), Expr],
  /* Index        */ &[NameOption, EXPRS],
  /* Inkey        */ &[],
  /* Error        */ &[],
];

/// Refusals 1 to 8; `work` is the length of the lent work in words.
pub fn refusal(words: &[u32], units: &[u16], work: usize) -> Option<Refusal> {
  let whole = |number| Option::Some(Refusal { number, place: 0 });
  if words.len() > 65536 || units.len() > 65536 {
    return whole(1);
  }
  if units.iter().any(|unit| (0xd800..=0xdfff).contains(unit)) {
    return whole(2);
  }
  if work < words.len() {
    return whole(3);
  }
  Walk { words, at: 0, text: units, line: &[] }.program().err()
}

type Step<T> = Result<T, Refusal>;

struct Walk<'a> {
  words: &'a [u32],
  at: usize,
  text: &'a [u16],
  /// The current line's units.
  line: &'a [u16],
}

fn refuse<T>(number: u32, place: usize) -> Step<T> {
  Err(Refusal { number, place })
}

impl<'a> Walk<'a> {
  fn program(&mut self) -> Step<()> {
    let lines = self.take(0x0f, |_| true)?;
    let mut done = 0;
    for _ in 0..lines {
      let head = self.at;
      let length = self.take(0x10, |length| length <= 4095)? as usize;
      if done + length > self.text.len() {
        return refuse(6, head);
      }
      self.line = &self.text[done..done + length];
      done += length;
      self.shape(&LabelOption, 0)?;
      self.shape(&Stmts, 0)?;
    }
    if self.at < self.words.len() {
      return refuse(4, self.at);
    }
    if done < self.text.len() {
      return refuse(6, self.words.len());
    }
    Ok(())
  }

  /// The payload of the next word if its kind and payload may stand here.
  fn take(&mut self, wanted: u32, good: impl Fn(u32) -> bool) -> Step<u32> {
    match self.words.get(self.at) {
      Option::Some(&word) if kind(word) == wanted && good(payload(word)) => {
        self.at += 1;
        Ok(payload(word))
      }
      // The end of the sheet is at its length: the same place.
      _ => refuse(4, self.at),
    }
  }

  /// Whether an option is absent; its word is then read.
  fn absent(&mut self) -> Step<bool> {
    if self.words.get(self.at).is_some_and(|&word| kind(word) == 0x02) {
      self.take(0x02, |payload| payload == 0)?;
      return Ok(true);
    }
    Ok(false)
  }

  /// The units of a range word.
  fn range(&mut self) -> Step<&'a [u16]> {
    let place = self.at;
    let range = self.take(0x01, |_| true)? as usize;
    let (start, end) = (range >> 12, range & 0xfff);
    if start > end || end > self.line.len() {
      return refuse(7, place);
    }
    Ok(&self.line[start..end])
  }

  /// A range whose units obey the rule.
  fn ruled_range(&mut self, rule: impl Fn(&[u16]) -> bool) -> Step<()> {
    let place = self.at;
    let units = self.range()?;
    if rule(units) { Ok(()) } else { refuse(7, place) }
  }

  /// `depth` is that of the statement or expression which holds the shape.
  fn shape(&mut self, shape: &Shape, depth: usize) -> Step<()> {
    match shape {
      Span => self.range().map(|_| ()),
      NameOption => {
        if self.absent()? {
          return Ok(());
        }
        self.ruled_range(is_name)
      }
      YesNo => self.take(0x05, |yes| yes <= 1).map(|_| ()),
      Mode => self.take(0x06, |mode| mode <= 5).map(|_| ()),
      Place(places) => self.take(0x09, |place| place < *places).map(|_| ()),
      LabelOption => {
        if self.absent()? {
          return Ok(());
        }
        self.range()?;
        self.take(0x03, |label| label <= 65535).map(|_| ())
      }
      BareLabelOption => {
        if self.absent()? {
          return Ok(());
        }
        self.take(0x03, |label| label <= 65535).map(|_| ())
      }
      Expr => self.expr(depth + 1, |_| true),
      Assigned => self.expr(depth + 1, |case| matches!(case, 0 | 7 | 9)),
      InputVar => self.expr(depth + 1, |case| matches!(case, 0 | 4 | 7 | 9)),
      ExprOption => {
        if self.absent()? {
          return Ok(());
        }
        self.expr(depth + 1, |_| true)
      }
      Stmts => {
        let count = self.take(0x04, |_| true)?;
        for _ in 0..count {
          self.stmt(depth + 1)?;
        }
        Ok(())
      }
      StmtsOption => {
        if self.absent()? {
          return Ok(());
        }
        self.shape(&Stmts, depth)
      }
      LenOption => {
        if self.absent()? {
          return Ok(());
        }
        self.range()?;
        self.expr(depth + 1, |_| true)
      }
      Datum => {
        let place = self.at;
        let units = self.range()?;
        let quoted = self.take(0x05, |yes| yes <= 1)?;
        if quoted == 1 && units.is_empty() {
          return refuse(7, place);
        }
        Ok(())
      }
      Source => match self.take(0x07, |source| source <= 2)? {
        0 => Ok(()),
        1 => self.ruled_range(|units| !units.is_empty()),
        _ => self.expr(depth + 1, |_| true),
      },
      Element => match self.take(0x08, |element| element <= 2)? {
        0 => self.expr(depth + 1, |_| true),
        _ => self.range().map(|_| ()),
      },
      List(items) => {
        let count = self.take(0x04, |_| true)?;
        self.repeat(count, items, depth)
      }
      Some(items) => {
        let count = self.take(0x04, |count| count > 0)?;
        self.repeat(count, items, depth)
      }
    }
  }

  fn repeat(&mut self, count: u32, items: &[Shape], depth: usize) -> Step<()> {
    for _ in 0..count {
      for item in items {
        self.shape(item, depth)?;
      }
    }
    Ok(())
  }

  fn stmt(&mut self, depth: usize) -> Step<()> {
    let place = self.at;
    let case = self.take(0x20, |case| case < 72)?;
    if depth > DEEPEST {
      return refuse(5, place);
    }
    if case == FSEEK {
      return refuse(8, place);
    }
    self.range()?;
    for field in STMTS[case as usize] {
      self.shape(field, depth)?;
    }
    Ok(())
  }

  fn expr(&mut self, depth: usize, good: impl Fn(u32) -> bool) -> Step<()> {
    let place = self.at;
    let case = self.take(0x21, |case| case < 10 && good(case))?;
    if depth > DEEPEST {
      return refuse(5, place);
    }
    match case {
      0 => self.ruled_range(is_name)?,
      1 => self.ruled_range(|units| !units.is_empty())?,
      _ => {
        self.range()?;
      }
    }
    if case == 2 {
      self.number()?;
    }
    for field in EXPR_FIELDS[case as usize] {
      self.shape(field, depth)?;
    }
    Ok(())
  }

  /// 0A and the two 0B words of a literal.
  fn number(&mut self) -> Step<()> {
    let e = self.take(0x0a, |e| e <= 256)?;
    if e == 0 || e == 256 {
      self.take(0x0b, |high| high == 0)?;
      self.take(0x0b, |low| low == 0)?;
    } else {
      self.take(0x0b, |high| (0x8000..=0xffff).contains(&high))?;
      self.take(0x0b, |low| low <= 0xffff)?;
    }
    Ok(())
  }
}

/// A letter, then letters, digits or blanks, then at most one % or $; the
/// last unit is no blank. All ASCII.
fn is_name(units: &[u16]) -> bool {
  const BLANK: u16 = b' ' as u16;
  const INTEGER: u16 = b'%' as u16;
  const TEXT: u16 = b'$' as u16;
  let letter =
    |unit: u16| u8::try_from(unit).is_ok_and(|byte| byte.is_ascii_alphabetic());
  let digit =
    |unit: u16| u8::try_from(unit).is_ok_and(|byte| byte.is_ascii_digit());
  let body = match units {
    [body @ .., INTEGER | TEXT] => body,
    [.., BLANK] => return false,
    _ => units,
  };
  match body {
    [first, rest @ ..] => {
      letter(*first)
        && rest.iter().all(|&u| letter(u) || digit(u) || u == BLANK)
    }
    [] => false,
  }
}
