//! What codegen.rs takes from its parent module, and a view of what it made.

use crate::ast::{FileMode, Range, SysFuncKind};
use crate::standins::{Mbf5, Utf16String};
use std::num::NonZeroUsize;

include!(concat!(env!("OUT_DIR"), "/vm.rs"));

pub use crate::standins::Symbol;
pub use codegen::CodeGen;

#[derive(Clone, Copy, PartialEq, Eq, Debug)]
pub struct Addr(pub usize);

#[derive(Clone, Copy, PartialEq, Eq, Debug)]
pub struct DatumIndex(pub usize);

pub const DUMMY_ADDR: Addr = Addr(usize::MAX);
pub const FISRT_DATUM_INDEX: DatumIndex = DatumIndex(0);

#[derive(Clone, PartialEq, Eq, Debug)]
pub struct Location {
  pub line: usize,
  pub range: Range,
}

#[derive(Clone, PartialEq, Debug)]
pub struct Instr {
  pub loc: Location,
  pub kind: InstrKind,
}

/// The device's letter tables are left out: a text is its units.
#[derive(Clone, PartialEq, Eq, Debug)]
pub struct ByteString(pub Vec<u16>);

pub enum StringProblem {
  #[allow(dead_code)]
  UnrecogEmoji(usize, char, u16),
  #[allow(dead_code)]
  InvalidChar(usize, char),
}

impl ByteString {
  pub fn from_utf16str(
    text: Utf16String,
    _version: crate::machine::EmojiVersion,
    _flag: bool,
  ) -> (Self, Vec<StringProblem>) {
    (Self(text.0), vec![])
  }

  pub fn len(&self) -> usize {
    self.0.len()
  }
}

#[derive(Clone, PartialEq, Eq, Debug)]
pub struct Datum {
  pub value: ByteString,
  pub is_quoted: bool,
}

#[derive(Clone, Copy, PartialEq, Eq, Debug)]
pub enum Alignment {
  Left,
  Right,
}

#[derive(Clone, Copy, PartialEq, Eq, Debug)]
pub enum CmpKind {
  Eq,
  Ne,
  Gt,
  Lt,
  Ge,
  Le,
}

#[derive(Clone, Copy, PartialEq, Eq, Debug)]
pub enum PrintMode {
  Normal,
  Inverse,
  Flash,
}

#[derive(Clone, Copy, PartialEq, Eq, Debug)]
pub enum ScreenMode {
  Text,
  Graph,
}

#[derive(Clone, PartialEq, Debug)]
pub enum InstrKind {
  Add,
  AlignedAssign(Alignment),
  And,
  AssignInt,
  AssignReal,
  AssignStr,
  Beep,
  Call,
  CallFn(Symbol),
  Clear,
  CloseFile,
  Cls,
  CmpNum(CmpKind),
  CmpStr(CmpKind),
  Concat,
  Debug,
  DefFn { name: Symbol, param: Symbol, end: Addr },
  DimArray { name: Symbol, dimensions: NonZeroUsize },
  Div,
  DrawBox { has_fill: bool, has_mode: bool },
  DrawCircle { has_fill: bool, has_mode: bool },
  DrawEllipse { has_fill: bool, has_mode: bool },
  DrawLine { has_mode: bool },
  DrawPoint { has_mode: bool },
  End,
  FileInput { fields: NonZeroUsize },
  Flush,
  ForLoop { name: Symbol, has_step: bool },
  Fputc,
  Fread,
  Fseek,
  Fwrite,
  GoSub(Addr),
  GoTo(Addr),
  JumpIfZero(Addr),
  KeyboardInput { has_prompt: bool, fields: NonZeroUsize },
  LoadBytes(Vec<u8>),
  Mul,
  Neg,
  NewLine,
  NextFor { name: Option<Symbol> },
  NoOp,
  Not,
  OpenFile { mode: FileMode, has_len: bool },
  Or,
  PaintBitmap { has_mode: bool },
  PlayNotes,
  Poke,
  Pop,
  PopNum,
  PopStr,
  Pow,
  PrintNum,
  PrintSpc,
  PrintStr,
  PrintTab,
  PushFnLValue { name: Symbol, param: Symbol },
  PushInKey,
  PushIndex { name: Symbol, dimensions: NonZeroUsize },
  PushIndexLValue { name: Symbol, dimensions: NonZeroUsize },
  PushNum(Mbf5),
  PushStr(ByteString),
  PushVar(Symbol),
  PushVarLValue { name: Symbol },
  ReadData,
  ReadRecord,
  Restart,
  RestoreDataPtr(DatumIndex),
  Return,
  ReturnFn,
  SetColumn,
  SetPrintMode(PrintMode),
  SetRecordFields { fields: NonZeroUsize },
  SetRow,
  SetScreenMode(ScreenMode),
  SetTrace(bool),
  Sleep,
  Sub,
  Swap,
  Switch(NonZeroUsize),
  SysFuncCall { kind: SysFuncKind, arity: NonZeroUsize },
  Wend,
  WhileLoop { start: Addr, end: Addr },
  WriteNum { to_file: bool, end: bool },
  WriteRecord,
  WriteStr { to_file: bool, end: bool },
}

// codegen.rs shows these fields to this module alone.

pub fn code(code_gen: &CodeGen) -> &[Instr] {
  &code_gen.code
}

pub fn data(code_gen: &CodeGen) -> &[Datum] {
  &code_gen.data
}

pub fn name(code_gen: &CodeGen, symbol: Symbol) -> &str {
  code_gen.interner.resolve(symbol)
}
