//! How statements, functions and operators are written: one table each, in the
//! order of the cases in stmt.rs and expr.rs, for the reader, the printer and
//! the listings; and a table of the statements of each simple form.

use crate::tree::{BinaryOp, FileMode, Range, StmtKind, SysFunc, UnaryOp};

/// The cases of StmtKind; the last one, a colon by itself, has no word.
pub const STATEMENTS: [&str; 72] = [
  "AUTO",
  "BEEP",
  "BOX",
  "CALL",
  "CIRCLE",
  "CLEAR",
  "CLOSE",
  "CLS",
  "CONT",
  "COPY",
  "DATA",
  "DEF",
  "DEL",
  "DIM",
  "DRAW",
  "EDIT",
  "ELLIPSE",
  "END",
  "FIELD",
  "FILES",
  "FLASH",
  "FOR",
  "GET",
  "GOSUB",
  "GOTO",
  "GRAPH",
  "IF",
  "INKEY$",
  "INPUT",
  "INVERSE",
  "KILL",
  "LET",
  "LINE",
  "LIST",
  "LOAD",
  "LOCATE",
  "LSET",
  "NEW",
  "NEXT",
  "NORMAL",
  "NOTRACE",
  "ON",
  "OPEN",
  "PAINT",
  "PLAY",
  "POKE",
  "POP",
  "PRINT",
  "PUT",
  "READ",
  "REM",
  "RENAME",
  "RESTORE",
  "RETURN",
  "RSET",
  "RUN",
  "SAVE",
  "STOP",
  "SWAP",
  "SYSTEM",
  "TEXT",
  "TRACE",
  "WEND",
  "WHILE",
  "WRITE",
  "SLEEP",
  "FPUTC",
  "FREAD",
  "FWRITE",
  "FSEEK",
  "DEBUGPRINT",
  "NO-OP",
];

/// The statements that are their word alone.
pub static WORDS_ALONE: [(&str, StmtKind); 17] = [
  ("BEEP", StmtKind::Beep),
  ("CLEAR", StmtKind::Clear),
  ("CLS", StmtKind::Cls),
  ("CONT", StmtKind::Cont),
  ("END", StmtKind::End),
  ("FLASH", StmtKind::Flash),
  ("GRAPH", StmtKind::Graph),
  ("INKEY$", StmtKind::InKey),
  ("INVERSE", StmtKind::Inverse),
  ("NORMAL", StmtKind::Normal),
  ("NOTRACE", StmtKind::NoTrace),
  ("POP", StmtKind::Pop),
  ("RETURN", StmtKind::Return),
  ("SYSTEM", StmtKind::System),
  ("TEXT", StmtKind::Text),
  ("TRACE", StmtKind::Trace),
  ("WEND", StmtKind::Wend),
];

/// The statements that go on to the line's end, with what stands behind their
/// word.
pub const REMARKS: [(&str, fn(Range) -> StmtKind); 12] = [
  ("AUTO", StmtKind::Auto),
  ("COPY", StmtKind::Copy),
  ("DEL", StmtKind::Del),
  ("EDIT", StmtKind::Edit),
  ("FILES", StmtKind::Files),
  ("KILL", StmtKind::Kill),
  ("LIST", StmtKind::List),
  ("NEW", StmtKind::New),
  ("REM", StmtKind::Rem),
  ("RENAME", StmtKind::Rename),
  ("SAVE", StmtKind::Save),
  ("STOP", StmtKind::Stop),
];

pub const FUNCTIONS: [(&str, SysFunc); 34] = [
  ("ABS", SysFunc::Abs),
  ("ASC", SysFunc::Asc),
  ("ATN", SysFunc::Atn),
  ("CHR$", SysFunc::Chr),
  ("COS", SysFunc::Cos),
  ("CVI$", SysFunc::Cvi),
  ("CVS$", SysFunc::Cvs),
  ("EOF", SysFunc::Eof),
  ("EXP", SysFunc::Exp),
  ("INT", SysFunc::Int),
  ("LEFT$", SysFunc::Left),
  ("LEN", SysFunc::Len),
  ("LOF", SysFunc::Lof),
  ("LOG", SysFunc::Log),
  ("MID$", SysFunc::Mid),
  ("MKI$", SysFunc::Mki),
  ("MKS$", SysFunc::Mks),
  ("PEEK", SysFunc::Peek),
  ("POS", SysFunc::Pos),
  ("RIGHT$", SysFunc::Right),
  ("RND", SysFunc::Rnd),
  ("SGN", SysFunc::Sgn),
  ("SIN", SysFunc::Sin),
  ("SQR", SysFunc::Sqr),
  ("STR$", SysFunc::Str),
  ("TAN", SysFunc::Tan),
  ("VAL", SysFunc::Val),
  ("TAB", SysFunc::Tab),
  ("SPC", SysFunc::Spc),
  ("POINT", SysFunc::Point),
  ("CHECKKEY", SysFunc::CheckKey),
  ("FOPEN", SysFunc::Fopen),
  ("FGETC", SysFunc::Fgetc),
  ("FTELL", SysFunc::Ftell),
];

pub const OPERATORS: [(&str, BinaryOp); 13] = [
  ("=", BinaryOp::Eq),
  ("<>", BinaryOp::Ne),
  (">", BinaryOp::Gt),
  ("<", BinaryOp::Lt),
  (">=", BinaryOp::Ge),
  ("<=", BinaryOp::Le),
  ("+", BinaryOp::Add),
  ("-", BinaryOp::Sub),
  ("*", BinaryOp::Mul),
  ("/", BinaryOp::Div),
  ("^", BinaryOp::Pow),
  ("AND", BinaryOp::And),
  ("OR", BinaryOp::Or),
];

pub const PREFIXES: [(&str, UnaryOp); 3] =
  [("NOT", UnaryOp::Not), ("-", UnaryOp::Neg), ("+", UnaryOp::Pos)];

/// The modes of a file, as document 01 numbers them; the first, a missing
/// one, has no word.
pub const MODES: [(&str, FileMode); 6] = [
  ("missing", FileMode::Error),
  ("RANDOM", FileMode::Random),
  ("INPUT", FileMode::Input),
  ("OUTPUT", FileMode::Output),
  ("APPEND", FileMode::Append),
  ("BINARY", FileMode::Binary),
];

/// How tightly a binary operator binds: from 1, the loosest, to 6. Operators
/// of one number are taken from left to right. Signs and NOT bind tighter than
/// all of them.
pub fn binding(op: BinaryOp) -> usize {
  match op {
    BinaryOp::Or => 1,
    BinaryOp::And => 2,
    BinaryOp::Eq
    | BinaryOp::Ne
    | BinaryOp::Gt
    | BinaryOp::Lt
    | BinaryOp::Ge
    | BinaryOp::Le => 3,
    BinaryOp::Add | BinaryOp::Sub => 4,
    BinaryOp::Mul | BinaryOp::Div => 5,
    BinaryOp::Pow => 6,
  }
}

/// How many letters are to be changed, left out, added or swapped to make one
/// word of the other.
pub fn distance(a: &str, b: &str) -> usize {
  let (a, b) = (a.as_bytes(), b.as_bytes());
  let mut rows = vec![(0..=b.len()).collect::<Vec<usize>>()];
  for i in 1..=a.len() {
    let mut row = vec![i];
    for j in 1..=b.len() {
      let change = (a[i - 1] != b[j - 1]) as usize;
      let mut least = rows[i - 1][j - 1] + change;
      least = least.min(rows[i - 1][j] + 1).min(row[j - 1] + 1);
      let swapped =
        i > 1 && j > 1 && a[i - 1] == b[j - 2] && a[i - 2] == b[j - 1];
      if swapped {
        least = least.min(rows[i - 2][j - 2] + 1);
      }
      row.push(least);
    }
    rows.push(row);
  }
  rows[a.len()][b.len()]
}
