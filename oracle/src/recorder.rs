//! Document 01's recorder as a CodeEmitter: one record for each numbered
//! call, the book, and the closing up by document 01's sentences.

use crate::HashMap;
use crate::ast::*;
use crate::compiler::CodeEmitter;
use crate::diagnostic::Diagnostic;
use crate::sheet;
use crate::standins::{self, Mbf5, Utf16String};
use std::num::NonZeroUsize;

/// A target that is not yet known.
pub const UNKNOWN: u32 = u32::MAX;

#[derive(Clone, PartialEq, Eq, Debug)]
pub struct Record {
  pub call: u32,
  pub line: usize,
  pub range: Range,
  pub args: [u32; 3],
}

impl Record {
  pub fn words(&self) -> [u32; 5] {
    let [a, b, c] = self.args;
    let head = (self.call << 24) + self.line as u32;
    [head, sheet::range_word(&self.range), a, b, c]
  }
}

pub const NAME: u32 = 50;
pub const DATUM: u32 = 51;
pub const BYTE: u32 = 52;

#[derive(Clone, PartialEq, Eq, Debug)]
pub struct Entry {
  pub kind: u32,
  /// Its number within the kind.
  pub number: u32,
  pub start: usize,
  pub length: usize,
  pub extra: u32,
}

impl Entry {
  pub fn words(&self) -> [u32; 4] {
    let head = (self.kind << 24) + self.number;
    [head, self.start as u32, self.length as u32, self.extra]
  }
}

#[derive(Clone, Default)]
pub struct Recorder {
  pub records: Vec<Record>,
  pub entries: Vec<Entry>,
  /// The upper-case spelling of each symbol.
  pub names: Vec<String>,
  symbols: HashMap<String, u32>,
  /// Where the number stands that is the end of a converted delay, and its
  /// e and m before they were rounded up.
  pub delay_ends: Vec<(usize, [u32; 2])>,
  /// Entries of each kind so far, from NAME on.
  counts: [u32; 3],
  line: usize,
}

impl Recorder {
  pub fn new() -> Self {
    Self::default()
  }

  fn emit(&mut self, call: u32, range: Range, args: [u32; 3]) -> usize {
    let line = self.line;
    self.records.push(Record { call, line, range, args });
    self.records.len() - 1
  }

  fn enter(&mut self, kind: u32, place: (usize, usize), extra: u32) -> u32 {
    let number = self.count(kind);
    self.counts[(kind - NAME) as usize] += 1;
    let (start, length) = place;
    self.entries.push(Entry { kind, number, start, length, extra });
    number
  }

  fn count(&self, kind: u32) -> u32 {
    self.counts[(kind - NAME) as usize]
  }
}

fn number(n: NonZeroUsize) -> u32 {
  n.get() as u32
}

impl CodeEmitter for Recorder {
  type Symbol = u32;
  type Addr = usize;
  type DatumIndex = u32;

  fn begin_line(&mut self, line: usize) {
    self.line = line;
  }

  fn current_addr(&self) -> usize {
    self.records.len()
  }

  // The book.

  /// The compiler hands over the spelling alone; the place is that of the
  /// name it read last.
  fn make_symbol(&mut self, name: String) -> u32 {
    if let Some(&known) = self.symbols.get(&name) {
      return known;
    }
    let (start, read) = standins::last_read();
    let (units, extra) = match name.strip_suffix(['%', '$']) {
      Some(units) => (units.len(), *name.as_bytes().last().unwrap() as u32),
      None => (name.len(), 0),
    };
    assert!(units <= read, "the name read last is the name made");
    self.names.push(name.clone());
    let symbol = self.enter(NAME, (start, units), extra);
    self.symbols.insert(name, symbol);
    symbol
  }

  fn emit_datum(
    &mut self,
    _range: Range,
    datum: Utf16String,
    is_quoted: bool,
  ) -> (u32, usize) {
    let place = standins::last_read();
    assert_eq!(place.1, datum.0.len(), "the text read last is the datum");
    (self.enter(DATUM, place, is_quoted as u32), place.1)
  }

  fn emit_load_bytes(&mut self, range: Range, bytes: Vec<u8>) {
    let first = self.count(BYTE);
    let places = standins::last_reads(bytes.len());
    for (&byte, place) in bytes.iter().zip(places) {
      self.enter(BYTE, place, byte as u32);
    }
    self.emit(35, range, [first, bytes.len() as u32, 0]);
  }

  // The calls.

  fn emit_no_op(&mut self, range: Range) {
    self.emit(1, range, [0; 3]);
  }

  fn emit_op(&mut self, range: Range, kind: &StmtKind, arity: usize) {
    self.emit(2, range, [sheet::stmt_case(kind), arity as u32, 0]);
  }

  fn emit_number(&mut self, range: Range, num: Mbf5) {
    self.emit(3, range, [num.e, num.m, 0]);
  }

  fn emit_string(&mut self, range: Range, text: Utf16String) -> usize {
    let (start, length) = standins::last_read();
    assert_eq!(length, text.0.len(), "the text read last is the string");
    self.emit(4, range, [start as u32, length as u32, 0]);
    length
  }

  fn emit_var(&mut self, range: Range, name: u32) {
    self.emit(5, range, [name, 0, 0]);
  }

  fn emit_index(&mut self, range: Range, name: u32, k: NonZeroUsize) {
    self.emit(6, range, [name, number(k), 0]);
  }

  fn emit_var_lvalue(&mut self, range: Range, name: u32) {
    self.emit(7, range, [name, 0, 0]);
  }

  fn emit_index_lvalue(&mut self, range: Range, name: u32, k: NonZeroUsize) {
    self.emit(8, range, [name, number(k), 0]);
  }

  fn emit_fn_lvalue(&mut self, range: Range, name: u32, param: u32) {
    self.emit(9, range, [name, param, 0]);
  }

  fn emit_inkey(&mut self, range: Range) {
    self.emit(10, range, [0; 3]);
  }

  fn emit_sys_func_call(
    &mut self,
    range: Range,
    kind: SysFuncKind,
    arity: NonZeroUsize,
  ) {
    let place = sheet::place_in(&sheet::SYS_FUNCS, kind);
    self.emit(11, range, [place, number(arity), 0]);
  }

  fn emit_user_func_call(&mut self, range: Range, name: u32) {
    self.emit(12, range, [name, 0, 0]);
  }

  fn emit_unary_expr(&mut self, range: Range, op: UnaryOpKind) {
    self.emit(13, range, [sheet::place_in(&sheet::UNARY_OPS, op), 0, 0]);
  }

  fn emit_num_binary_expr(&mut self, range: Range, op: BinaryOpKind) {
    self.emit(14, range, [sheet::place_in(&sheet::BINARY_OPS, op), 0, 0]);
  }

  fn emit_str_binary_expr(&mut self, range: Range, op: BinaryOpKind) {
    self.emit(15, range, [sheet::place_in(&sheet::BINARY_OPS, op), 0, 0]);
  }

  fn emit_assign_int(&mut self, range: Range) {
    self.emit(16, range, [0; 3]);
  }

  fn emit_assign_real(&mut self, range: Range) {
    self.emit(17, range, [0; 3]);
  }

  fn emit_assign_str(&mut self, range: Range) {
    self.emit(18, range, [0; 3]);
  }

  fn emit_jz(&mut self, range: Range) -> usize {
    self.emit(19, range, [UNKNOWN, 0, 0])
  }

  fn emit_goto(&mut self, range: Range) -> usize {
    self.emit(20, range, [UNKNOWN, 0, 0])
  }

  fn emit_gosub(&mut self, range: Range) -> usize {
    self.emit(21, range, [UNKNOWN, 0, 0])
  }

  fn patch_jump_addr(&mut self, addr: usize, target: usize) {
    let record = &mut self.records[addr];
    assert!(matches!(record.call, 19..=21));
    record.args[0] = target as u32;
  }

  fn emit_on(&mut self, range: Range, labels: NonZeroUsize) {
    self.emit(22, range, [number(labels), 0, 0]);
  }

  fn emit_for(&mut self, range: Range, var: u32, has_step: bool) {
    self.emit(23, range, [var, has_step as u32, 0]);
  }

  fn emit_next(&mut self, range: Range, var: Option<u32>) {
    self.emit(24, range, [var.map_or(0, |var| var + 1), 0, 0]);
  }

  fn emit_while(&mut self, range: Range, cond_start: usize) {
    self.emit(25, range, [cond_start as u32, UNKNOWN, 0]);
  }

  fn begin_def_fn(&mut self, range: Range, name: u32, param: u32) -> usize {
    self.emit(26, range, [name, param, UNKNOWN])
  }

  fn end_def_fn(&mut self, def: usize) {
    let range = self.records[def].range.clone();
    self.emit(27, range, [0; 3]);
    self.records[def].args[2] = self.records.len() as u32;
  }

  fn emit_dim(&mut self, range: Range, name: u32, k: NonZeroUsize) {
    self.emit(28, range, [name, number(k), 0]);
  }

  fn emit_field(&mut self, range: Range, fields: NonZeroUsize) {
    self.emit(29, range, [number(fields), 0, 0]);
  }

  fn emit_read(&mut self, range: Range) {
    self.emit(30, range, [0; 3]);
  }

  fn emit_restore(&mut self, range: Range) -> usize {
    self.emit(31, range, [0; 3])
  }

  fn patch_datum_index(&mut self, addr: usize, index: u32) {
    let record = &mut self.records[addr];
    assert_eq!(record.call, 31);
    record.args[0] = index;
  }

  fn emit_keyboard_input(
    &mut self,
    range: Range,
    has_prompt: bool,
    fields: NonZeroUsize,
  ) {
    self.emit(32, range, [has_prompt as u32, number(fields), 0]);
  }

  fn emit_file_input(&mut self, range: Range, fields: NonZeroUsize) {
    self.emit(33, range, [number(fields), 0, 0]);
  }

  fn emit_open(&mut self, range: Range, mode: FileMode, has_len: bool) {
    let mode = sheet::place_in(&sheet::FILE_MODES, mode);
    self.emit(34, range, [mode, has_len as u32, 0]);
  }

  fn emit_set_row(&mut self, range: Range) {
    self.emit(36, range, [0; 3]);
  }

  fn emit_set_column(&mut self, range: Range) {
    self.emit(37, range, [0; 3]);
  }

  fn emit_print_num(&mut self, range: Range) {
    self.emit(38, range, [0; 3]);
  }

  fn emit_print_str(&mut self, range: Range) {
    self.emit(39, range, [0; 3]);
  }

  fn emit_print_spc(&mut self, range: Range) {
    self.emit(40, range, [0; 3]);
  }

  fn emit_print_tab(&mut self, range: Range) {
    self.emit(41, range, [0; 3]);
  }

  fn emit_newline(&mut self, range: Range) {
    self.emit(42, range, [0; 3]);
  }

  fn emit_flush(&mut self, range: Range) {
    self.emit(43, range, [0; 3]);
  }

  fn emit_write_num(&mut self, range: Range, to_file: bool, end: bool) {
    self.emit(44, range, [to_file as u32, end as u32, 0]);
  }

  fn emit_write_str(&mut self, range: Range, to_file: bool, end: bool) {
    self.emit(45, range, [to_file as u32, end as u32, 0]);
  }

  fn emit_pop_num(&mut self, range: Range) {
    self.emit(46, range, [0; 3]);
  }

  fn emit_pop_str(&mut self, range: Range) {
    self.emit(47, range, [0; 3]);
  }

  fn clean_up(&mut self) -> Vec<(usize, Diagnostic)> {
    let notes = self.close_whiles();
    self.convert_delays();
    self.emit(2, Range::empty(0), [END, 0, 0]);
    notes
  }
}

const END: u32 = 17;
const WEND: u32 = 62;
const SLEEP: u32 = 65;

impl Recorder {
  /// "A WHILE's end is one past the first later place where WENDs since it
  /// outnumber WHILEs since it by one; if there is none, a class 13 note,
  /// last WHILE first."
  fn close_whiles(&mut self) -> Vec<(usize, Diagnostic)> {
    let mut notes = vec![];
    let loops: Vec<(usize, i32)> = (self.records.iter().enumerate())
      .filter_map(|(at, record)| match record {
        Record { call: 25, .. } => Some((at, -1)),
        Record { call: 2, args: [WEND, ..], .. } => Some((at, 1)),
        _ => None,
      })
      .collect();
    for (i, &(at, way)) in loops.iter().enumerate().rev() {
      if way == 1 {
        continue;
      }
      let mut balance = 0;
      let end = loops[i + 1..].iter().find(|(_, way)| {
        balance += way;
        balance == 1
      });
      match end {
        Some((wend, _)) => self.records[at].args[1] = *wend as u32 + 1,
        None => notes.push((
          self.records[at].line,
          Diagnostic::new_error(
            self.records[at].range.clone(),
            "WHILE 语句没有对应的 WEND 语句",
          ),
        )),
      }
    }
    notes
  }

  /// "A delay is number zero or one, then a nonzero number or a variable,
  /// with step also number one, then FOR, then NEXT naming none or the same
  /// symbol."
  fn convert_delays(&mut self) {
    for at in 0..self.records.len() {
      let has_step = match &self.records[at..] {
        [
          Record { call: 23, args: [name, has_step, _], .. },
          Record { call: 24, args: [next, ..], .. },
          ..,
        ] if *next == 0 || *next == name + 1 => *has_step == 1,
        _ => continue,
      };
      let wanted = if has_step { 3 } else { 2 };
      if at < wanted {
        continue;
      }
      let start = at - wanted;
      if !(is_number(&self.records[start], 0, 0)
        || is_number(&self.records[start], 129, 1 << 31))
      {
        continue;
      }
      if has_step && !is_number(&self.records[at - 1], 129, 1 << 31) {
        continue;
      }
      let end = &mut self.records[start + 1];
      match end {
        Record { call: 3, args: [e, m, _], .. } if *e != 0 => {
          self.delay_ends.push((start + 1, [*e, *m]));
          (*e, *m) = round_up(*e, *m);
        }
        Record { call: 5, .. } => {}
        _ => continue,
      }
      self.no_op(start);
      if has_step {
        self.no_op(at - 1);
      }
      self.records[at].call = 2;
      self.records[at].args = [SLEEP, 1, 0];
      self.no_op(at + 1);
    }
  }

  /// Line and range stay.
  fn no_op(&mut self, at: usize) {
    self.records[at].call = 1;
    self.records[at].args = [0; 3];
  }
}

fn is_number(record: &Record, e: u32, m: u32) -> bool {
  record.call == 3 && record.args[0] == e && record.args[1] == m
}

/// m × 2^(e−160), not zero, up to a whole number, in whole numbers alone.
pub fn round_up(e: u32, m: u32) -> (u32, u32) {
  if e >= 160 {
    return (e, m);
  }
  let shift = 160 - e;
  let whole = if shift >= 33 {
    1
  } else {
    let unit = 1u64 << shift;
    (m as u64).div_ceil(unit)
  };
  // whole is from 1 to 2^31.
  let up = whole.leading_zeros() - 32;
  (160 - up, (whole << up) as u32)
}
