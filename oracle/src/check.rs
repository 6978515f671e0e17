//! Compares document 01's recorder with the unchanged CodeGen: both get every
//! call of one compilation, and the list is then read instruction by
//! instruction.
//!
//! A record is one instruction but for emit_no_op and unary plus (none) and
//! INKEY$ as a statement (two), so addresses are carried over by the number
//! of instructions before a record. CodeGen judges delays on its own code,
//! where such a record does not stand between: there it may convert one that
//! document 01 leaves, and that is counted apart.

use crate::ast::*;
use crate::compiler::{self, CodeEmitter};
use crate::diagnostic::Diagnostic;
use crate::form;
use crate::machine::EmojiVersion;
use crate::recorder::{self, Record, Recorder, UNKNOWN};
use crate::run::{self, Input};
use crate::sheet::{self, BINARY_OPS, FILE_MODES, SYS_FUNCS};
use crate::standins::{self, Mbf5, Symbol, Utf16Str, Utf16String};
use crate::vm::{
  self, Addr, Alignment, ByteString, CmpKind, CodeGen, DUMMY_ADDR, DatumIndex,
  Instr, InstrKind, PrintMode, ScreenMode,
};
use std::fmt::{self, Display, Formatter};
use std::num::NonZeroUsize;

#[derive(Default)]
pub struct Counts {
  pub inputs: usize,
  pub accepted: usize,
  pub records: usize,
  pub delays: usize,
  /// Delays that CodeGen alone converts.
  pub delays_apart: usize,
}

impl Display for Counts {
  fn fmt(&self, f: &mut Formatter) -> fmt::Result {
    write!(
      f,
      "{} inputs, {} compiled: {} records equal CodeGen's instructions, {} delays, {} delays that CodeGen alone converts",
      self.inputs, self.accepted, self.records, self.delays, self.delays_apart
    )
  }
}

impl Counts {
  /// Compares one input; a refused one is passed over.
  pub fn check(&mut self, input: &Input) -> Result<(), String> {
    self.inputs += 1;
    let work = input.words.len();
    if form::refusal(&input.words, &input.units, work).is_some() {
      return Ok(());
    }
    self.accepted += 1;
    self
      .compare(input)
      .map_err(|error| format!("{error}\n{}", crate::replay::readable(input)))
  }

  fn compare(&mut self, input: &Input) -> Result<(), String> {
    let mut prog = sheet::decode(&input.words).ok_or("no tree")?;
    let text = Utf16Str::from_units(&input.units);
    standins::begin(text);
    let mut both = Both::new();
    compiler::compile_prog(text, &mut prog, &mut both);

    // The recorder makes the same by itself.
    let alone = run::compile_as_rust(&input.words, &input.units);
    if alone.recorder.records != both.recorder.records
      || alone.recorder.entries != both.recorder.entries
    {
      return Err("the recorder depends on its company".into());
    }

    let Both { recorder, code_gen, starts, code_gen_notes, notes } = &both;
    let code = vm::code(code_gen);
    let view = View { recorder, starts, units: &input.units };

    // Notes of closing up: line and range.
    if notes != code_gen_notes {
      return Err(format!("notes: {notes:?} against {code_gen_notes:?}"));
    }

    // Names and data.
    for (i, name) in recorder.names.iter().enumerate() {
      if vm::name(code_gen, Symbol(i)) != name {
        return Err(format!("name {i}"));
      }
    }
    let data: Vec<_> = (recorder.entries.iter())
      .filter(|entry| entry.kind == recorder::DATUM)
      .collect();
    if data.len() != vm::data(code_gen).len() {
      return Err("number of data".into());
    }
    for (entry, datum) in data.iter().zip(vm::data(code_gen)) {
      let same = datum.value.0 == view.text(entry.start, entry.length)
        && datum.is_quoted == (entry.extra == 1);
      if !same {
        return Err(format!("datum {}", entry.number));
      }
    }

    let apart = self.delays_apart(&view, code);
    for (at, record) in recorder.records.iter().enumerate() {
      let instrs = &code[starts[at]..view.start(at + 1)];
      if apart.contains(&at) {
        continue;
      }
      let expected = view.instrs(record, instrs.len())?;
      let same = expected.len() == instrs.len()
        && (expected.iter().zip(instrs)).all(|(kind, instr)| {
          *kind == instr.kind
            && instr.loc.line == record.line
            && instr.loc.range == record.range
        });
      if !same {
        return Err(format!(
          "record {at}: {record:?} is {expected:?}, CodeGen has {instrs:?}"
        ));
      }
      self.records += 1;
      if record.call == 2 && record.args == [65, 1, 0] {
        let is_delay =
          (recorder.records.get(at + 1)).is_some_and(|next| next.call == 1);
        self.delays += is_delay as usize;
      }
    }
    if view.start(recorder.records.len()) != code.len() {
      return Err("length of the code".into());
    }
    Ok(())
  }

  /// The records of delays that CodeGen converts and document 01 leaves.
  /// There must be a record without an instruction among them.
  fn delays_apart(&mut self, view: &View, code: &[Instr]) -> Vec<usize> {
    let records = &view.recorder.records;
    let mut apart = vec![];
    for (at, record) in records.iter().enumerate() {
      if record.call != 23 || code[view.starts[at]].kind != InstrKind::Sleep {
        continue;
      }
      let wanted = 2 + record.args[1] as usize;
      let has_instr = |at: usize| view.start(at + 1) > view.start(at);
      let before: Vec<usize> =
        (0..at).rev().filter(|&at| has_instr(at)).take(wanted).collect();
      let after = (at + 1..records.len()).find(|&at| has_instr(at)).unwrap();
      let first = *before.last().unwrap();
      let between = after - first - wanted - 1;
      if between > 0 {
        apart.extend(before);
        apart.push(at);
        apart.push(after);
        self.delays_apart += 1;
      }
    }
    apart
  }
}

/// What turns records into instructions.
struct View<'a> {
  recorder: &'a Recorder,
  /// Instructions before each record.
  starts: &'a [usize],
  units: &'a [u16],
}

fn nonzero(n: u32) -> NonZeroUsize {
  NonZeroUsize::new(n as usize).expect("a count above zero")
}

fn symbol(n: u32) -> Symbol {
  Symbol(n as usize)
}

impl View<'_> {
  fn start(&self, at: usize) -> usize {
    self.starts[at]
  }

  fn text(&self, start: usize, length: usize) -> &[u16] {
    &self.units[start..start + length]
  }

  fn addr(&self, target: u32) -> Addr {
    if target == UNKNOWN {
      DUMMY_ADDR
    } else {
      Addr(self.start(target as usize))
    }
  }

  /// The instructions of a record, by codegen.rs. `made` is how many CodeGen
  /// made of it: a no-op made of a delay's record still has its one.
  fn instrs(
    &self,
    record: &Record,
    made: usize,
  ) -> Result<Vec<InstrKind>, String> {
    let [a, b, c] = record.args;
    let yes = |n: u32| n == 1;
    let one = match record.call {
      1 if made == 0 => return Ok(vec![]),
      1 => InstrKind::NoOp,
      2 if a == 27 => {
        return Ok(vec![InstrKind::PushInKey, InstrKind::PopStr]);
      }
      2 => op(a, b)?,
      3 => InstrKind::PushNum(Mbf5 { e: a, m: b }),
      4 => InstrKind::PushStr(ByteString(
        self.text(a as usize, b as usize).to_vec(),
      )),
      5 => InstrKind::PushVar(symbol(a)),
      6 => InstrKind::PushIndex { name: symbol(a), dimensions: nonzero(b) },
      7 => InstrKind::PushVarLValue { name: symbol(a) },
      8 => {
        InstrKind::PushIndexLValue { name: symbol(a), dimensions: nonzero(b) }
      }
      9 => InstrKind::PushFnLValue { name: symbol(a), param: symbol(b) },
      10 => InstrKind::PushInKey,
      11 => InstrKind::SysFuncCall {
        kind: SYS_FUNCS[a as usize],
        arity: nonzero(b),
      },
      12 => InstrKind::CallFn(symbol(a)),
      13 => match a {
        0 => InstrKind::Not,
        1 => InstrKind::Neg,
        _ => return Ok(vec![]),
      },
      14 => match BINARY_OPS[a as usize] {
        BinaryOpKind::Add => InstrKind::Add,
        BinaryOpKind::Sub => InstrKind::Sub,
        BinaryOpKind::Mul => InstrKind::Mul,
        BinaryOpKind::Div => InstrKind::Div,
        BinaryOpKind::Pow => InstrKind::Pow,
        BinaryOpKind::And => InstrKind::And,
        BinaryOpKind::Or => InstrKind::Or,
        _ => InstrKind::CmpNum(cmp(a)?),
      },
      15 if BINARY_OPS[a as usize] == BinaryOpKind::Add => InstrKind::Concat,
      15 => InstrKind::CmpStr(cmp(a)?),
      16 => InstrKind::AssignInt,
      17 => InstrKind::AssignReal,
      18 => InstrKind::AssignStr,
      19 => InstrKind::JumpIfZero(self.addr(a)),
      20 => InstrKind::GoTo(self.addr(a)),
      21 => InstrKind::GoSub(self.addr(a)),
      22 => InstrKind::Switch(nonzero(a)),
      23 => InstrKind::ForLoop { name: symbol(a), has_step: yes(b) },
      24 => InstrKind::NextFor { name: a.checked_sub(1).map(symbol) },
      25 => InstrKind::WhileLoop { start: self.addr(a), end: self.addr(b) },
      26 => InstrKind::DefFn {
        name: symbol(a),
        param: symbol(b),
        end: self.addr(c),
      },
      27 => InstrKind::ReturnFn,
      28 => InstrKind::DimArray { name: symbol(a), dimensions: nonzero(b) },
      29 => InstrKind::SetRecordFields { fields: nonzero(a) },
      30 => InstrKind::ReadData,
      31 => InstrKind::RestoreDataPtr(DatumIndex(a as usize)),
      32 => InstrKind::KeyboardInput { has_prompt: yes(a), fields: nonzero(b) },
      33 => InstrKind::FileInput { fields: nonzero(a) },
      34 => {
        InstrKind::OpenFile { mode: FILE_MODES[a as usize], has_len: yes(b) }
      }
      35 => {
        let bytes = (self.recorder.entries.iter())
          .filter(|entry| entry.kind == recorder::BYTE)
          .skip(a as usize)
          .take(b as usize)
          .map(|entry| entry.extra as u8)
          .collect();
        InstrKind::LoadBytes(bytes)
      }
      36 => InstrKind::SetRow,
      37 => InstrKind::SetColumn,
      38 => InstrKind::PrintNum,
      39 => InstrKind::PrintStr,
      40 => InstrKind::PrintSpc,
      41 => InstrKind::PrintTab,
      42 => InstrKind::NewLine,
      43 => InstrKind::Flush,
      44 => InstrKind::WriteNum { to_file: yes(a), end: yes(b) },
      45 => InstrKind::WriteStr { to_file: yes(a), end: yes(b) },
      46 => InstrKind::PopNum,
      47 => InstrKind::PopStr,
      call => return Err(format!("call {call}")),
    };
    Ok(vec![one])
  }
}

fn cmp(op: u32) -> Result<CmpKind, String> {
  Ok(match BINARY_OPS[op as usize] {
    BinaryOpKind::Eq => CmpKind::Eq,
    BinaryOpKind::Ne => CmpKind::Ne,
    BinaryOpKind::Gt => CmpKind::Gt,
    BinaryOpKind::Lt => CmpKind::Lt,
    BinaryOpKind::Ge => CmpKind::Ge,
    BinaryOpKind::Le => CmpKind::Le,
    other => return Err(format!("{other:?} does not compare")),
  })
}

/// Call 2: the instruction of a statement with its number of operands.
fn op(case: u32, count: u32) -> Result<InstrKind, String> {
  Ok(match case {
    1 => InstrKind::Beep,
    2 => InstrKind::DrawBox { has_fill: count >= 5, has_mode: count >= 6 },
    3 => InstrKind::Call,
    4 => InstrKind::DrawCircle { has_fill: count >= 4, has_mode: count >= 5 },
    5 => InstrKind::Clear,
    6 => InstrKind::CloseFile,
    7 => InstrKind::Cls,
    8 => InstrKind::NoOp,
    14 => InstrKind::DrawPoint { has_mode: count >= 3 },
    16 => InstrKind::DrawEllipse { has_fill: count >= 5, has_mode: count >= 6 },
    17 => InstrKind::End,
    20 => InstrKind::SetPrintMode(PrintMode::Flash),
    22 => InstrKind::ReadRecord,
    25 => InstrKind::SetScreenMode(ScreenMode::Graph),
    29 => InstrKind::SetPrintMode(PrintMode::Inverse),
    32 => InstrKind::DrawLine { has_mode: count >= 5 },
    36 => InstrKind::AlignedAssign(Alignment::Left),
    39 => InstrKind::SetPrintMode(PrintMode::Normal),
    40 => InstrKind::SetTrace(false),
    43 => InstrKind::PaintBitmap { has_mode: count >= 6 },
    44 => InstrKind::PlayNotes,
    45 => InstrKind::Poke,
    46 => InstrKind::Pop,
    48 => InstrKind::WriteRecord,
    53 => InstrKind::Return,
    54 => InstrKind::AlignedAssign(Alignment::Right),
    55 => InstrKind::Restart,
    58 => InstrKind::Swap,
    60 => InstrKind::SetScreenMode(ScreenMode::Text),
    61 => InstrKind::SetTrace(true),
    62 => InstrKind::Wend,
    65 => InstrKind::Sleep,
    66 => InstrKind::Fputc,
    67 => InstrKind::Fread,
    68 => InstrKind::Fwrite,
    70 => InstrKind::Debug,
    _ => return Err(format!("call 2 of statement {case}")),
  })
}

// ---------------------------------------------------------------- both

/// Hands every call to the recorder and to CodeGen.
struct Both {
  recorder: Recorder,
  code_gen: CodeGen,
  /// CodeGen's length before each record, and at last after all.
  starts: Vec<usize>,
  /// Line and range of the notes of closing up.
  notes: Vec<(usize, Range)>,
  code_gen_notes: Vec<(usize, Range)>,
}

impl Both {
  fn new() -> Self {
    Self {
      recorder: Recorder::new(),
      code_gen: CodeGen::new(EmojiVersion),
      starts: vec![],
      notes: vec![],
      code_gen_notes: vec![],
    }
  }

  /// Notes down CodeGen's length for each record made since.
  fn mark(&mut self, before: usize) {
    while self.starts.len() < self.recorder.records.len() {
      self.starts.push(before);
    }
  }

  fn both<A, B>(
    &mut self,
    recorder: impl FnOnce(&mut Recorder) -> A,
    code_gen: impl FnOnce(&mut CodeGen) -> B,
  ) -> (A, B) {
    let before = vm::code(&self.code_gen).len();
    let a = recorder(&mut self.recorder);
    self.mark(before);
    (a, code_gen(&mut self.code_gen))
  }
}

/// One method of the trait: the arguments as they are for both, then for the
/// recorder (`.0` of a pair) and for CodeGen (`.1`).
macro_rules! to_both {
  ($name:ident($($arg:ident: $ty:ty),*)) => {
    fn $name(&mut self, range: Range $(, $arg: $ty)*) {
      let own = range.clone();
      self.both(
        |r| r.$name(range $(, First::first($arg))*),
        |g| g.$name(own $(, Second::second($arg))*),
      );
    }
  };
  (addr $name:ident()) => {
    fn $name(&mut self, range: Range) -> Self::Addr {
      let own = range.clone();
      self.both(|r| r.$name(range), |g| g.$name(own))
    }
  };
}

trait First {
  type To;
  fn first(self) -> Self::To;
}

trait Second {
  type To;
  fn second(self) -> Self::To;
}

impl<A, B> First for (A, B) {
  type To = A;
  fn first(self) -> A {
    self.0
  }
}

impl<A, B> Second for (A, B) {
  type To = B;
  fn second(self) -> B {
    self.1
  }
}

macro_rules! same_for_both {
  ($($ty:ty),*) => {$(
    impl First for $ty {
      type To = $ty;
      fn first(self) -> $ty {
        self
      }
    }
    impl Second for $ty {
      type To = $ty;
      fn second(self) -> $ty {
        self
      }
    }
  )*};
}

same_for_both!(
  bool,
  NonZeroUsize,
  Mbf5,
  FileMode,
  UnaryOpKind,
  BinaryOpKind,
  SysFuncKind
);

impl CodeEmitter for Both {
  type Symbol = (u32, Symbol);
  type Addr = (usize, Addr);
  type DatumIndex = (u32, DatumIndex);

  fn begin_line(&mut self, line: usize) {
    self.both(|r| r.begin_line(line), |g| g.begin_line(line));
  }

  fn emit_op(&mut self, range: Range, kind: &StmtKind, arity: usize) {
    let own = range.clone();
    self
      .both(|r| r.emit_op(range, kind, arity), |g| g.emit_op(own, kind, arity));
  }

  fn emit_load_bytes(&mut self, range: Range, bytes: Vec<u8>) {
    let own = (range.clone(), bytes.clone());
    self.both(
      |r| r.emit_load_bytes(range, bytes),
      |g| g.emit_load_bytes(own.0, own.1),
    );
  }

  fn emit_datum(
    &mut self,
    range: Range,
    datum: Utf16String,
    quoted: bool,
  ) -> (Self::DatumIndex, usize) {
    let own = (range.clone(), datum.clone());
    let (a, b) = self.both(
      |r| r.emit_datum(range, datum, quoted),
      |g| g.emit_datum(own.0, own.1, quoted),
    );
    assert_eq!(a.1, b.1);
    ((a.0, b.0), a.1)
  }

  fn emit_string(&mut self, range: Range, text: Utf16String) -> usize {
    let own = (range.clone(), text.clone());
    let (a, b) = self
      .both(|r| r.emit_string(range, text), |g| g.emit_string(own.0, own.1));
    assert_eq!(a, b);
    a
  }

  fn make_symbol(&mut self, name: String) -> Self::Symbol {
    let own = name.clone();
    self.both(|r| r.make_symbol(name), |g| g.make_symbol(own))
  }

  fn begin_def_fn(
    &mut self,
    range: Range,
    name: Self::Symbol,
    param: Self::Symbol,
  ) -> Self::Addr {
    let own = range.clone();
    self.both(
      |r| r.begin_def_fn(range, name.0, param.0),
      |g| g.begin_def_fn(own, name.1, param.1),
    )
  }

  fn end_def_fn(&mut self, def: Self::Addr) {
    self.both(|r| r.end_def_fn(def.0), |g| g.end_def_fn(def.1));
  }

  fn emit_next(&mut self, range: Range, var: Option<Self::Symbol>) {
    let own = range.clone();
    self.both(
      |r| r.emit_next(range, var.map(|var| var.0)),
      |g| g.emit_next(own, var.map(|var| var.1)),
    );
  }

  fn patch_jump_addr(&mut self, addr: Self::Addr, target: Self::Addr) {
    self.both(
      |r| r.patch_jump_addr(addr.0, target.0),
      |g| g.patch_jump_addr(addr.1, target.1),
    );
  }

  fn patch_datum_index(&mut self, addr: Self::Addr, index: Self::DatumIndex) {
    self.both(
      |r| r.patch_datum_index(addr.0, index.0),
      |g| g.patch_datum_index(addr.1, index.1),
    );
  }

  fn current_addr(&self) -> Self::Addr {
    (self.recorder.current_addr(), self.code_gen.current_addr())
  }

  fn emit_while(&mut self, range: Range, start: Self::Addr) {
    let own = range.clone();
    self.both(|r| r.emit_while(range, start.0), |g| g.emit_while(own, start.1));
  }

  fn clean_up(&mut self) -> Vec<(usize, Diagnostic)> {
    let places = |notes: &[(usize, Diagnostic)]| {
      notes.iter().map(|(line, note)| (*line, note.range.clone())).collect()
    };
    let (notes, code_gen_notes) = self.both(|r| r.clean_up(), |g| g.clean_up());
    self.notes = places(&notes);
    self.code_gen_notes = places(&code_gen_notes);
    self.starts.push(vm::code(&self.code_gen).len());
    notes
  }

  to_both!(emit_no_op());
  to_both!(emit_dim(name: Self::Symbol, k: NonZeroUsize));
  to_both!(emit_var_lvalue(name: Self::Symbol));
  to_both!(emit_index_lvalue(name: Self::Symbol, k: NonZeroUsize));
  to_both!(emit_fn_lvalue(name: Self::Symbol, param: Self::Symbol));
  to_both!(emit_field(fields: NonZeroUsize));
  to_both!(emit_for(var: Self::Symbol, has_step: bool));
  to_both!(emit_assign_int());
  to_both!(emit_assign_real());
  to_both!(emit_assign_str());
  to_both!(addr emit_gosub());
  to_both!(addr emit_goto());
  to_both!(addr emit_jz());
  to_both!(addr emit_restore());
  to_both!(emit_on(labels: NonZeroUsize));
  to_both!(emit_set_row());
  to_both!(emit_set_column());
  to_both!(emit_keyboard_input(has_prompt: bool, fields: NonZeroUsize));
  to_both!(emit_file_input(fields: NonZeroUsize));
  to_both!(emit_open(mode: FileMode, has_len: bool));
  to_both!(emit_read());
  to_both!(emit_newline());
  to_both!(emit_print_spc());
  to_both!(emit_print_tab());
  to_both!(emit_print_num());
  to_both!(emit_print_str());
  to_both!(emit_flush());
  to_both!(emit_pop_num());
  to_both!(emit_pop_str());
  to_both!(emit_write_num(to_file: bool, end: bool));
  to_both!(emit_write_str(to_file: bool, end: bool));
  to_both!(emit_number(num: Mbf5));
  to_both!(emit_var(name: Self::Symbol));
  to_both!(emit_inkey());
  to_both!(emit_index(name: Self::Symbol, k: NonZeroUsize));
  to_both!(emit_unary_expr(op: UnaryOpKind));
  to_both!(emit_num_binary_expr(op: BinaryOpKind));
  to_both!(emit_str_binary_expr(op: BinaryOpKind));
  to_both!(emit_user_func_call(name: Self::Symbol));
  to_both!(emit_sys_func_call(kind: SysFuncKind, arity: NonZeroUsize));
}
