//! The tree of a form. The cases stand in the sheet's order.

/// A piece of a line, in units from the line's start.
#[derive(Clone, Copy, PartialEq, Eq, Debug, Default)]
pub struct Range {
  pub start: usize,
  pub end: usize,
}

impl Range {
  /// What lies in so many units.
  pub fn within(&self, len: usize) -> Self {
    let end = self.end.min(len);
    Self { start: self.start.min(end), end }
  }

  /// The units of a line that lie in the range.
  pub fn units<'a>(&self, line: &'a [u16]) -> &'a [u16] {
    let Self { start, end } = self.within(line.len());
    &line[start..end]
  }

  /// The same as a text.
  pub fn text(&self, line: &[u16]) -> String {
    String::from_utf16_lossy(self.units(line))
  }
}

#[derive(Clone, PartialEq, Debug, Default)]
pub struct Program {
  pub lines: Vec<Line>,
}

impl Program {
  /// The lines, each with its units; `units` is the whole text.
  pub fn lines_of<'a>(
    &'a self,
    units: &'a [u16],
  ) -> impl Iterator<Item = (&'a Line, &'a [u16])> {
    let lengths = self.lines.iter().map(|line| line.len);
    self.lines.iter().zip(pieces(units, lengths))
  }
}

/// The pieces of a text with these lengths, one behind the other. What would
/// stand behind the text is not there.
pub fn pieces<'a>(
  units: &'a [u16],
  lengths: impl Iterator<Item = usize>,
) -> impl Iterator<Item = &'a [u16]> {
  let mut rest = units;
  lengths.map(move |len| {
    let (piece, behind) = rest.split_at(len.min(rest.len()));
    rest = behind;
    piece
  })
}

#[derive(Clone, PartialEq, Debug)]
pub struct Line {
  /// The line's length in units, with its end.
  pub len: usize,
  pub label: Label,
  pub stmts: Vec<Stmt>,
}

/// A label and where it stands, if there is one.
pub type Label = Option<(Range, u16)>;

#[derive(Clone, PartialEq, Debug)]
pub struct Stmt {
  pub range: Range,
  pub kind: StmtKind,
}

#[derive(Clone, PartialEq, Debug)]
pub enum StmtKind {
  Auto(Range),
  Beep,
  Box(Vec<Expr>),
  Call(Expr),
  Circle(Vec<Expr>),
  Clear,
  Close(Expr),
  Cls,
  Cont,
  Copy(Range),
  Data(Vec<Datum>),
  Def {
    name: Option<Range>,
    param: Option<Range>,
    body: Expr,
  },
  Del(Range),
  Dim(Vec<Expr>),
  Draw(Vec<Expr>),
  Edit(Range),
  Ellipse(Vec<Expr>),
  End,
  Field {
    filenum: Expr,
    fields: Vec<Field>,
  },
  Files(Range),
  Flash,
  For {
    var: Option<Range>,
    start: Expr,
    end: Expr,
    step: Option<Expr>,
  },
  Get {
    filenum: Expr,
    record: Expr,
  },
  GoSub(Label),
  GoTo {
    keyword: bool,
    label: Label,
  },
  Graph,
  If {
    cond: Expr,
    conseq: Vec<Stmt>,
    alt: Option<Vec<Stmt>>,
  },
  InKey,
  Input {
    source: InputSource,
    vars: Vec<Expr>,
  },
  Inverse,
  Kill(Range),
  Let {
    var: Expr,
    value: Expr,
  },
  Line(Vec<Expr>),
  List(Range),
  Load(Vec<Expr>),
  Locate {
    row: Option<Expr>,
    column: Option<Expr>,
  },
  LSet {
    var: Expr,
    value: Expr,
  },
  New(Range),
  Next(Vec<Option<Range>>),
  Normal,
  NoTrace,
  On {
    cond: Expr,
    labels: Vec<(Range, Option<u16>)>,
    is_sub: bool,
  },
  Open {
    filename: Expr,
    mode: FileMode,
    filenum: Expr,
    len: Option<(Range, Expr)>,
  },
  Paint(Vec<Expr>),
  Play(Expr),
  Poke {
    addr: Expr,
    value: Expr,
  },
  Pop,
  Print(Vec<PrintElement>),
  Put {
    filenum: Expr,
    record: Expr,
  },
  Read(Vec<Expr>),
  Rem(Range),
  Rename(Range),
  Restore(Label),
  Return,
  RSet {
    var: Expr,
    value: Expr,
  },
  Run(Range),
  Save(Range),
  Stop(Range),
  Swap {
    left: Expr,
    right: Expr,
  },
  System,
  Text,
  Trace,
  Wend,
  While(Expr),
  Write {
    filenum: Option<Expr>,
    data: Vec<WriteElement>,
  },
  Sleep(Expr),
  Fputc {
    filenum: Expr,
    value: Expr,
  },
  Fread {
    filenum: Expr,
    addr: Expr,
    size: Expr,
  },
  Fwrite {
    filenum: Expr,
    addr: Expr,
    size: Expr,
  },
  Fseek {
    filenum: Expr,
    offset: Expr,
  },
  DebugPrint(Expr),
  NoOp,
}

/// The statements that are their word alone, as a pattern.
macro_rules! word_alone {
  () => {
    StmtKind::Beep
      | StmtKind::Clear
      | StmtKind::Cls
      | StmtKind::Cont
      | StmtKind::End
      | StmtKind::Flash
      | StmtKind::Graph
      | StmtKind::InKey
      | StmtKind::Inverse
      | StmtKind::Normal
      | StmtKind::NoTrace
      | StmtKind::Pop
      | StmtKind::Return
      | StmtKind::System
      | StmtKind::Text
      | StmtKind::Trace
      | StmtKind::Wend
  };
}
pub(crate) use word_alone;

/// The statements that go on to the line's end, as a pattern of what stands
/// behind their word.
macro_rules! remark {
  ($text:pat) => {
    StmtKind::Auto($text)
      | StmtKind::Copy($text)
      | StmtKind::Del($text)
      | StmtKind::Edit($text)
      | StmtKind::Files($text)
      | StmtKind::Kill($text)
      | StmtKind::List($text)
      | StmtKind::New($text)
      | StmtKind::Rem($text)
      | StmtKind::Rename($text)
      | StmtKind::Save($text)
      | StmtKind::Stop($text)
  };
}
pub(crate) use remark;

#[derive(Clone, Copy, PartialEq, Eq, Debug)]
pub struct Datum {
  pub range: Range,
  pub quoted: bool,
}

#[derive(Clone, PartialEq, Debug)]
pub struct Field {
  pub len: Expr,
  pub var: Expr,
}

#[derive(Clone, PartialEq, Debug)]
pub enum InputSource {
  Keyboard,
  Prompt(Range),
  File(Expr),
}

#[derive(Clone, Copy, PartialEq, Eq, Debug)]
pub enum FileMode {
  Error,
  Random,
  Input,
  Output,
  Append,
  Binary,
}

#[derive(Clone, PartialEq, Debug)]
pub enum PrintElement {
  Expr(Expr),
  Comma(Range),
  Semicolon(Range),
}

#[derive(Clone, PartialEq, Debug)]
pub struct WriteElement {
  pub datum: Expr,
  pub comma: bool,
}

#[derive(Clone, PartialEq, Debug)]
pub struct Expr {
  pub range: Range,
  pub kind: ExprKind,
}

#[derive(Clone, PartialEq, Debug)]
pub enum ExprKind {
  Ident,
  StringLit,
  NumberLit(Number),
  SysFuncCall { func: (Range, SysFunc), args: Vec<Expr> },
  UserFuncCall { func: Option<Range>, arg: Box<Expr> },
  Binary { lhs: Box<Expr>, op: (Range, BinaryOp), rhs: Box<Expr> },
  Unary { op: (Range, UnaryOp), arg: Box<Expr> },
  Index { name: Option<Range>, indices: Vec<Expr> },
  Inkey,
  Error,
}

impl ExprKind {
  /// Whether the range of such an expression is what it says: a name, a text
  /// or a number. Parentheses around it do not widen it.
  pub fn is_said_by_range(&self) -> bool {
    matches!(self, Self::Ident | Self::StringLit | Self::NumberLit(_))
  }
}

/// A literal's value: m times 2^(e - 160) with m at least 2^31; zero at e 0;
/// too large at e 256.
#[derive(Clone, Copy, PartialEq, Eq, Debug)]
pub struct Number {
  pub e: u32,
  pub m: u32,
}

impl Number {
  pub const ZERO: Self = Self { e: 0, m: 0 };
  pub const TOO_LARGE: Self = Self { e: 256, m: 0 };
}

impl From<f64> for Number {
  /// The nearest literal; what is not above zero is zero.
  fn from(x: f64) -> Self {
    if x.is_nan() || x <= 0.0 {
      return Self::ZERO;
    }
    let (mut m, mut e) = (x, 160);
    while m >= 4294967296.0 && e <= 255 {
      m /= 2.0;
      e += 1;
    }
    while m < 2147483648.0 && e > 0 {
      m *= 2.0;
      e -= 1;
    }
    let mut m = m.round() as u64;
    if m >> 32 != 0 {
      m >>= 1;
      e += 1;
    }
    match e {
      0 => Self::ZERO,
      256.. => Self::TOO_LARGE,
      _ => Self { e, m: m as u32 },
    }
  }
}

#[derive(Clone, Copy, PartialEq, Eq, Debug)]
pub enum SysFunc {
  Abs,
  Asc,
  Atn,
  Chr,
  Cos,
  Cvi,
  Cvs,
  Eof,
  Exp,
  Int,
  Left,
  Len,
  Lof,
  Log,
  Mid,
  Mki,
  Mks,
  Peek,
  Pos,
  Right,
  Rnd,
  Sgn,
  Sin,
  Sqr,
  Str,
  Tan,
  Val,
  Tab,
  Spc,
  Point,
  CheckKey,
  Fopen,
  Fgetc,
  Ftell,
}

#[derive(Clone, Copy, PartialEq, Eq, Debug)]
pub enum BinaryOp {
  Eq,
  Ne,
  Gt,
  Lt,
  Ge,
  Le,
  Add,
  Sub,
  Mul,
  Div,
  Pow,
  And,
  Or,
}

#[derive(Clone, Copy, PartialEq, Eq, Debug)]
pub enum UnaryOp {
  Not,
  Neg,
  Pos,
}
