//! The seeded generator of valid sheets with their text.

use crate::ast::*;
use crate::damage;
use crate::maker::*;
use crate::rng::Rng;
use crate::run::{self, Input};
use crate::sheet::{self, BINARY_OPS, FILE_MODES, SYS_FUNCS, UNARY_OPS};
use crate::standins::{Array, SmallVec, Value};

#[derive(Clone, Copy, PartialEq, Eq)]
pub enum Sort {
  Valid,
  Damaged,
  Mixed,
}

/// The words a small sheet may have; damage adds three at most.
pub const SMALL: usize = 56;

/// The `index`th input of a seed.
pub fn generate(seed: u64, index: u64, sort: Sort, small: bool) -> Input {
  let mut rng = Rng::at(seed, index);
  let damaged = match sort {
    Sort::Valid => false,
    Sort::Damaged => true,
    Sort::Mixed => rng.chance(50),
  };
  let mut input = sheet_and_text(&mut rng, small);
  if damaged && !small && rng.chance(6) {
    input = too_deep(&mut rng);
  } else if damaged {
    damage::damage(&mut rng, &mut input, small);
  }
  lend(&mut rng, &mut input);
  input
}

/// A valid sheet and its text.
pub fn sheet_and_text(rng: &mut Rng, small: bool) -> Input {
  loop {
    let input = program(rng, small);
    let fits = !small || input.words.len() <= SMALL;
    if fits && input.words.len() <= 65536 && input.units.len() <= 65536 {
      return input;
    }
  }
}

/// A sheet that is good but for a depth of 65 or a little more, among others
/// that just fit.
fn too_deep(rng: &mut Rng) -> Input {
  let deepest = *rng.pick(&[64, 65, 65, 66, 70]);
  let ifs = *rng.pick(&[0, 1, 20, 62, 63, 64, 66]);
  let style = Style::plain();
  let mut maker =
    Maker { line: LineMaker::new(), rng, style, labels: &[], budget: 6 };
  let mut stmts = maker.stmts(1, 1);
  maker.line.put(":");
  stmts.push(maker.deep_stmt(1, ifs, deepest));
  input_of(vec![maker.line.finish(None, stmts)])
}

/// Lends buffers: mostly ample, else just enough, one short, half or none.
pub fn lend(rng: &mut Rng, input: &mut Input) {
  input.work = input.words.len();
  let (records, notes, entries) = sizes(input);
  input.list = 5 * records;
  input.notes = 4 * notes;
  input.book = 4 * entries;
  let exact = rng.chance(20);
  if !exact {
    input.list += rng.below(12);
    input.notes += rng.below(9);
    input.book += rng.below(9);
    input.work += rng.below(6);
  }
  if rng.chance(88) {
    return;
  }
  // A short one, or several.
  for _ in 0..rng.between(1, 2) {
    let buffer = match rng.below(9) {
      0..4 => &mut input.list,
      4..6 => &mut input.notes,
      6..8 => &mut input.book,
      _ => &mut input.work,
    };
    *buffer = match rng.below(5) {
      0 => 0,
      1 => *buffer / 2,
      2 => buffer.saturating_sub(5),
      _ => buffer.saturating_sub(1),
    };
  }
}

/// Finished sizes, or guesses for a refused sheet.
fn sizes(input: &Input) -> (usize, usize, usize) {
  let words = input.words.len();
  let work = words;
  match crate::form::refusal(&input.words, &input.units, work) {
    Some(_) => (words, words / 2, words / 2),
    None => {
      let made = run::compile(&input.words, &input.units);
      let recorder = &made.recorder;
      (recorder.records.len(), made.notes.len(), recorder.entries.len())
    }
  }
}

// ---------------------------------------------------------------- programs

fn program(rng: &mut Rng, small: bool) -> Input {
  let lines = if rng.chance(2) {
    0
  } else if small {
    rng.between(1, 3)
  } else {
    *rng.pick(&[1, 1, 2, 2, 3, 4, 5, 8, 12])
  };
  let theme = rng.below(12);
  let style = Style {
    // Percent of parts that are missing, of wrong kinds, of odd ranges and of
    // literals whose text does not say their value.
    missing: *rng.pick(&[0, 0, 2, 10]),
    wrong: *rng.pick(&[0, 3, 10, 30]),
    odd_range: *rng.pick(&[0, 0, 0, 5, 40]),
    free_value: *rng.pick(&[0, 0, 0, 30]),
    odd_name: *rng.pick(&[0, 10, 30]),
    // One rare, long text here and there.
    long_text: if small { 1 } else { *rng.pick(&[0, 2, 15]) },
  };
  let labels = labels(rng, lines);
  let mut made = vec![];
  for &label in &labels {
    loop {
      let mut maker = Maker {
        line: LineMaker::new(),
        rng,
        style,
        labels: &labels,
        // What is left to spend on nodes of this line.
        budget: 0,
      };
      maker.budget = if small {
        maker.rng.between(1, 8) as i32
      } else {
        *maker.rng.pick(&[3, 8, 20, 60])
      };
      let line = maker.whole_line(label, theme);
      if line.units.len() <= 4095 {
        made.push(line);
        break;
      }
    }
  }
  input_of(made)
}

/// Labels of the lines: rising, or not, or partly absent.
fn labels(rng: &mut Rng, lines: usize) -> Vec<Option<u16>> {
  let way = rng.below(7);
  let mut last = 0u32;
  (0..lines)
    .map(|i| match way {
      0 => Some(10 * (i as u16 + 1)),
      1 => {
        last += rng.between(if i == 0 { 0 } else { 1 }, 30) as u32;
        Some(last as u16)
      }
      2 => Some(*rng.pick(&[0, 0, 10, 20, 30])),
      3 => Some(*rng.pick(&[0, 1, 10, 9999, 10000, 65534, 65535])),
      4 => rng.chance(50).then(|| rng.below(60) as u16),
      5 => None,
      _ => {
        let near = 10 * (i as u16 + 1);
        Some(if rng.chance(25) { rng.below(40) as u16 } else { near })
      }
    })
    .collect()
}

#[derive(Clone, Copy)]
struct Style {
  missing: usize,
  wrong: usize,
  odd_range: usize,
  free_value: usize,
  odd_name: usize,
  long_text: usize,
}

impl Style {
  fn plain() -> Self {
    Self {
      missing: 0,
      wrong: 0,
      odd_range: 0,
      free_value: 0,
      odd_name: 10,
      long_text: 0,
    }
  }
}

/// The kind of value that is wanted of an expression.
#[derive(Clone, Copy, PartialEq, Eq)]
enum Want {
  Num,
  Text,
}

struct Maker<'a> {
  line: LineMaker,
  rng: &'a mut Rng,
  style: Style,
  labels: &'a [Option<u16>],
  budget: i32,
}

impl Maker<'_> {
  fn whole_line(mut self, label: Option<u16>, theme: usize) -> MadeLine {
    let label = label.map(|number| {
      let range = self.line.put(&number.to_string());
      self.line.put(" ");
      (self.span(range), Label(number))
    });
    let stmts = match theme {
      0 | 1 if self.rng.chance(70) => self.delay_line(),
      2 if self.rng.chance(80) => self.loop_line(),
      3 if self.rng.chance(70) => self.data_line(),
      4 if self.rng.chance(40) => self.deep_line(),
      _ => self.stmts(1, 4),
    };
    if self.rng.chance(5) {
      self.line.put(" \u{4e2d}\u{6587}");
    }
    self.line.finish(label, stmts)
  }

  // ------------------------------------------------------------ pieces

  fn wide(&mut self) -> u16 {
    *self.rng.pick(&[0x80, 0xe9, 0x4e2d, 0xd7ff, 0xe000, 0xffff, 0xff21])
  }

  /// A plain range; now and then another one of the line.
  fn span(&mut self, range: Range) -> Range {
    if !self.rng.chance(self.style.odd_range) {
      return range;
    }
    let end = self.rng.below(self.line.at() + 1);
    let start = if self.rng.chance(30) { end } else { self.rng.below(end + 1) };
    Range::new(start, end)
  }

  fn missing(&mut self) -> bool {
    let percent = self.style.missing;
    self.rng.chance(percent)
  }

  /// A name's text with the sigil.
  fn name_text(&mut self, sigil: &str) -> String {
    let plain = ["A", "B", "C", "I", "J", "X", "X1", "Abc", "DIA"];
    let odd =
      ["a", "aBc", "A B", "A  B", "dia one", "DIA TWO", "Z9 9", "i", "a1 "];
    let odd_name = self.style.odd_name;
    let mut name = if self.rng.chance(odd_name) {
      self.rng.pick(&odd).to_string()
    } else {
      self.rng.pick(&plain).to_string()
    };
    if self.rng.chance(odd_name / 4) {
      name.push(' ');
    }
    if self.rng.chance(2) {
      name += &self.rng.below(40).to_string();
    }
    if sigil.is_empty() {
      name = name.trim_end().to_string();
    }
    name + sigil
  }

  fn sigil(&mut self, want: Want) -> &'static str {
    match want {
      Want::Text => "$",
      Want::Num => *self.rng.pick(&["", "", "%"]),
    }
  }

  fn name(&mut self, want: Want) -> Range {
    let sigil = self.sigil(want);
    let text = self.name_text(sigil);
    self.line.put(&text)
  }

  /// A name that should be real: a function's, a parameter, a counter.
  fn real_name(&mut self) -> Option<Range> {
    if self.missing() {
      return None;
    }
    let wrong = self.style.wrong;
    let sigil =
      if self.rng.chance(wrong) { *self.rng.pick(&["%", "$"]) } else { "" };
    let text = self.name_text(sigil);
    Some(self.line.put(&text))
  }

  fn want(&mut self, want: Want) -> Want {
    let wrong = self.style.wrong;
    if !self.rng.chance(wrong) {
      want
    } else if want == Want::Num {
      Want::Text
    } else {
      Want::Num
    }
  }

  // ------------------------------------------------------------ literals

  /// A literal whose text says its value, or does not.
  fn number(&mut self) -> ExprId {
    if self.rng.chance(self.style.free_value) {
      let value = self.any_value();
      let text = *self.rng.pick(&["7", "", "1 2", ".", "ABC", "1E5"]);
      return self.line.number(text, value);
    }
    let (text, value) = self.true_literal();
    self.line.number(&text, value)
  }

  fn any_value(&mut self) -> Value {
    let e = match self.rng.below(6) {
      0 => *self.rng.pick(&[0, 1, 127, 128, 129, 130, 159, 160, 161, 255, 256]),
      1..4 => self.rng.between(126, 161),
      _ => self.rng.between(0, 256),
    } as u32;
    if e == 0 || e == 256 {
      return Value { e, m: 0 };
    }
    let high = 1u32 << 31;
    let m = match self.rng.below(4) {
      0 => high,
      1 => u32::MAX,
      2 => high + (1 << self.rng.below(31)),
      _ => high | self.rng.next() as u32,
    };
    Value { e, m }
  }

  fn true_literal(&mut self) -> (String, Value) {
    match self.rng.below(12) {
      0 => ("0".into(), ZERO),
      1 => ("1".into(), ONE),
      2 => ("12".into(), value(12, 0)),
      3 => ("12.5".into(), value(25, 1)),
      4 => ("1 2".into(), value(12, 0)),
      5 => ("1E39".into(), TOO_LARGE),
      6 => {
        let m = self.rng.next() % (1 << 32);
        (m.to_string(), value(m, 0))
      }
      7 | 8 => {
        let places = self.rng.between(1, 20) as u32;
        let m = self.rng.next() % (1 << 24);
        (decimal(m, places), value(m, places))
      }
      9 => ("2E3".into(), value(2000, 0)),
      _ => {
        let n = self.rng.below(300) as u64;
        (n.to_string(), value(n, 0))
      }
    }
  }

  /// Units of a string, prompt or quoted datum, with at least one unit.
  fn quoted(&mut self) -> Range {
    let long = self.style.long_text;
    let inside = if self.rng.chance(long) {
      self.rng.between(253, 258)
    } else {
      self.rng.below(5)
    };
    let mut units = vec![];
    let first = if self.rng.chance(5) { b'Q' } else { b'"' };
    units.push(first as u16);
    for _ in 0..inside {
      let unit = match self.rng.below(12) {
        0 => self.wide(),
        1 => b' ' as u16,
        2 => b',' as u16,
        3 if inside < 5 => b'"' as u16,
        n => b'A' as u16 + n as u16,
      };
      units.push(unit);
    }
    if self.rng.chance(80) {
      units.push(b'"' as u16);
    }
    self.line.put_units(&units)
  }

  fn string(&mut self) -> ExprId {
    let range = self.quoted();
    self.line.expr(ExprKind::StringLit, range)
  }

  // ------------------------------------------------------------ expressions

  fn num(&mut self, depth: usize) -> ExprId {
    self.expr(depth, Want::Num)
  }

  fn text(&mut self, depth: usize) -> ExprId {
    self.expr(depth, Want::Text)
  }

  /// An expression at `depth`, mostly of the kind that is wanted.
  fn expr(&mut self, depth: usize, want: Want) -> ExprId {
    if self.missing() {
      return self.line.missing();
    }
    let want = self.want(want);
    self.budget -= 1;
    let simple = depth >= 64 || self.budget <= 0 || self.rng.chance(45);
    if simple { self.simple(want) } else { self.compound(depth, want) }
  }

  fn simple(&mut self, want: Want) -> ExprId {
    match (want, self.rng.below(10)) {
      (Want::Num, 0..6) => self.number(),
      (Want::Text, 0..5) => self.string(),
      (Want::Text, 5..7) => {
        let range = self.line.put("INKEY$");
        let range = self.span(range);
        self.line.expr(ExprKind::Inkey, range)
      }
      _ => {
        let range = self.name(want);
        self.line.expr(ExprKind::Ident, range)
      }
    }
  }

  fn compound(&mut self, depth: usize, want: Want) -> ExprId {
    let start = self.line.at();
    let below = depth + 1;
    let kind = match (want, self.rng.below(10)) {
      (Want::Num, 0..3) => {
        let texts = self.rng.chance(25);
        let op = if texts {
          *self.rng.pick(&BINARY_OPS[..6])
        } else {
          *self.rng.pick(&BINARY_OPS)
        };
        let side = if texts { Want::Text } else { Want::Num };
        self.binary(below, side, op)
      }
      (Want::Text, 0..3) => self.binary(below, Want::Text, BinaryOpKind::Add),
      (Want::Num, 3..5) => {
        let op = *self.rng.pick(&UNARY_OPS);
        let range = self.line.put(&format!("{op:?}"));
        let range = self.span(range);
        let arg = self.num(below);
        ExprKind::Unary { op: (range, op), arg }
      }
      (Want::Num, 5) => {
        self.line.put("FN ");
        let func = self.real_name();
        self.line.put("(");
        let arg = self.num(below);
        self.line.put(")");
        ExprKind::UserFuncCall { func, arg }
      }
      (_, 6 | 7) => {
        let name = if self.missing() { None } else { Some(self.name(want)) };
        let indices = self.args(below, &[Want::Num], 1, 3);
        ExprKind::Index { name, indices }
      }
      _ => self.sys_func(below, want),
    };
    let range = self.line.since(start);
    let range = self.span(range);
    self.line.expr(kind, range)
  }

  fn binary(&mut self, below: usize, side: Want, op: BinaryOpKind) -> ExprKind {
    let lhs = self.expr(below, side);
    let range = self.line.put(&format!("{op:?}"));
    let range = self.span(range);
    let rhs = self.expr(below, side);
    ExprKind::Binary { lhs, op: (range, op), rhs }
  }

  fn sys_func(&mut self, below: usize, want: Want) -> ExprKind {
    let kind = loop {
      let kind = *self.rng.pick(&SYS_FUNCS);
      let outside = matches!(kind, SysFuncKind::Tab | SysFuncKind::Spc);
      let fits = signature(kind).1 == want;
      let wrong = self.style.wrong;
      if (fits && !outside) || self.rng.chance(wrong) {
        break kind;
      }
    };
    let range = self.line.put(&format!("{kind:?}"));
    let func = (self.span(range), kind);
    let args = self.sys_args(below, kind);
    ExprKind::SysFuncCall { func, args }
  }

  fn sys_args(
    &mut self,
    below: usize,
    kind: SysFuncKind,
  ) -> NonEmptyVec<[ExprId; 1]> {
    let (wants, _) = signature(kind);
    let low = if kind == SysFuncKind::Mid { 2 } else { wants.len() };
    let wrong = self.style.wrong;
    if self.rng.chance(wrong) {
      self.args(below, wants, 1, wants.len() + 2)
    } else {
      self.args(below, wants, low, wants.len())
    }
  }

  /// From `low` to `high` expressions in brackets; kinds by `wants`, the last
  /// for the rest.
  fn args<A: Array<Item = ExprId>>(
    &mut self,
    depth: usize,
    wants: &[Want],
    low: usize,
    high: usize,
  ) -> NonEmptyVec<A> {
    let count = self.rng.between(low, high);
    let mut args = vec![];
    for i in 0..count {
      self.line.put(if i == 0 { "(" } else { "," });
      args.push(self.expr(depth, wants[i.min(wants.len() - 1)]));
    }
    self.line.put(")");
    NonEmptyVec::new(args).unwrap()
  }

  /// An assigned place.
  fn place(&mut self, depth: usize, want: Want) -> ExprId {
    if self.missing() {
      return self.line.missing();
    }
    let want = self.want(want);
    self.budget -= 1;
    let start = self.line.at();
    if self.rng.chance(70) || depth >= 64 {
      let range = self.name(want);
      return self.line.expr(ExprKind::Ident, range);
    }
    let name = if self.missing() { None } else { Some(self.name(want)) };
    let indices = self.args(depth + 1, &[Want::Num], 1, 2);
    let range = self.line.since(start);
    let range = self.span(range);
    self.line.expr(ExprKind::Index { name, indices }, range)
  }

  fn any_place(&mut self, depth: usize) -> ExprId {
    let want = *self.rng.pick(&[Want::Num, Want::Text]);
    self.place(depth, want)
  }

  // ------------------------------------------------------------ statements

  /// Up to `most` statements at `depth`.
  fn stmts(&mut self, depth: usize, most: usize) -> Vec<StmtId> {
    let mut stmts = vec![];
    let count = if self.rng.chance(8) { 0 } else { self.rng.between(1, most) };
    for i in 0..count {
      if self.budget <= 0 {
        break;
      }
      if i > 0 {
        self.line.put(":");
      }
      let case = self.rng.below(72);
      stmts.push(self.stmt(depth, case));
    }
    stmts
  }

  fn label(&mut self) -> Option<(Range, Label)> {
    if self.rng.chance(15) {
      return None;
    }
    let number = self.target();
    let range = self.line.put(&number.to_string());
    Some((self.span(range), Label(number)))
  }

  /// A label that a line has, or (less often) any other.
  fn target(&mut self) -> u16 {
    let known: Vec<u16> = self.labels.iter().flatten().copied().collect();
    if known.is_empty() || self.rng.chance(20) {
      *self.rng.pick(&[0, 1, 10, 15, 20, 9999, 65535])
    } else {
      *self.rng.pick(&known)
    }
  }

  fn rest(&mut self, word: &str) -> Range {
    self.line.put(word);
    let range = self.line.put(" X Y");
    self.span(range)
  }

  fn draw<A: Array<Item = ExprId>>(
    &mut self,
    depth: usize,
    low: usize,
    high: usize,
  ) -> NonEmptyVec<A> {
    let wrong = self.style.wrong;
    if self.rng.chance(wrong) {
      self.args(depth, &[Want::Num], 1, high + 2)
    } else {
      self.args(depth, &[Want::Num], low, high)
    }
  }

  /// The statement of the case at `depth`; FSEEK's case gives REM.
  fn stmt(&mut self, depth: usize, case: usize) -> StmtId {
    let start = self.line.at();
    self.budget -= 1;
    let kind = self.stmt_kind(depth, case);
    let range = self.line.since(start);
    let range = self.span(range);
    self.line.stmt(kind, range)
  }

  fn stmt_kind(&mut self, depth: usize, case: usize) -> StmtKind {
    let below = depth + 1;
    // Nothing that holds an expression fits below a statement at 64.
    let bare = [1, 5, 7, 8, 17, 20, 24, 38, 46, 50, 53, 62, 71];
    let case = if depth >= 64 { *self.rng.pick(&bare) } else { case };
    match case {
      0 => StmtKind::Auto(self.rest("AUTO")),
      1 => self.word("BEEP", StmtKind::Beep),
      2 => {
        self.line.put("BOX ");
        StmtKind::Box(self.draw(below, 4, 6))
      }
      3 => {
        self.line.put("CALL ");
        StmtKind::Call(self.num(below))
      }
      4 => {
        self.line.put("CIRCLE ");
        StmtKind::Circle(self.draw(below, 3, 5))
      }
      5 => self.word("CLEAR", StmtKind::Clear),
      6 => {
        self.line.put("CLOSE #");
        StmtKind::Close { filenum: self.num(below) }
      }
      7 => self.word("CLS", StmtKind::Cls),
      8 => self.word("CONT", StmtKind::Cont),
      9 => StmtKind::Copy(self.rest("COPY")),
      10 => self.data(),
      11 => {
        self.line.put("DEF FN ");
        let name = self.real_name();
        self.line.put("(");
        let param = self.real_name();
        self.line.put(")=");
        StmtKind::Def { name, param, body: self.num(below) }
      }
      12 => StmtKind::Del(self.rest("DEL")),
      13 => {
        self.line.put("DIM ");
        let mut vars = vec![];
        for _ in 0..self.rng.between(1, 3) {
          let var = match self.rng.below(5) {
            0 => self.any_place(below),
            1 if self.rng.chance(30) => self.text(below),
            _ => self.array(below),
          };
          vars.push(var);
          self.line.put(",");
        }
        StmtKind::Dim(NonEmptyVec::new(vars).unwrap())
      }
      14 => {
        self.line.put("DRAW ");
        StmtKind::Draw(self.draw(below, 2, 3))
      }
      15 => StmtKind::Edit(self.rest("EDIT")),
      16 => {
        self.line.put("ELLIPSE ");
        StmtKind::Ellipse(self.draw(below, 4, 6))
      }
      17 => self.word("END", StmtKind::End),
      18 => {
        self.line.put("FIELD #");
        let filenum = self.num(below);
        let mut fields = vec![];
        for _ in 0..self.rng.between(1, 3) {
          self.line.put(",");
          let len = self.num(below);
          self.line.put(" AS ");
          let var = self.place(below, Want::Text);
          fields.push(FieldSpec { range: Range::empty(0), len, var });
        }
        let fields = NonEmptyVec::new(fields).unwrap();
        StmtKind::Field { filenum, fields }
      }
      19 => StmtKind::Files(self.rest("FILES")),
      20 => self.word("FLASH", StmtKind::Flash),
      21 => {
        self.line.put("FOR ");
        let var = self.real_name();
        self.line.put("=");
        let start = self.num(below);
        self.line.put(" TO ");
        let end = self.num(below);
        let step = self.option(" STEP ", below);
        StmtKind::For { var, start, end, step }
      }
      22 => {
        let (filenum, record) = self.two(below, "GET #", Want::Num, Want::Num);
        StmtKind::Get { filenum, record }
      }
      23 => {
        self.line.put("GOSUB ");
        StmtKind::GoSub(self.label())
      }
      24 => {
        let has_goto_keyword = self.rng.chance(70);
        if has_goto_keyword {
          self.line.put("GOTO ");
        }
        StmtKind::GoTo { has_goto_keyword, label: self.label() }
      }
      25 => self.word("GRAPH", StmtKind::Graph),
      26 => {
        self.line.put("IF ");
        let cond = self.num(below);
        self.line.put(" THEN ");
        let conseq = SmallVec(self.stmts(below, 2));
        let alt = self.rng.chance(50).then(|| {
          self.line.put(" ELSE ");
          SmallVec(self.stmts(below, 2))
        });
        StmtKind::If { cond, conseq, alt }
      }
      27 => self.word("INKEY$", StmtKind::InKey),
      28 => self.input(below),
      29 => self.word("INVERSE", StmtKind::Inverse),
      30 => StmtKind::Kill(self.rest("KILL")),
      31 => {
        let want = *self.rng.pick(&[Want::Num, Want::Text]);
        let var = self.place(below, want);
        self.line.put("=");
        let value = self.expr(below, want);
        StmtKind::Let { var, value }
      }
      32 => {
        self.line.put("LINE ");
        StmtKind::Line(self.draw(below, 4, 5))
      }
      33 => StmtKind::List(self.rest("LIST")),
      34 => self.load(below),
      35 => {
        self.line.put("LOCATE");
        let row = self.option(" ", below);
        let column = self.option(",", below);
        StmtKind::Locate { row, column }
      }
      36 => {
        self.line.put("LSET ");
        let var = self.place(below, Want::Text);
        self.line.put("=");
        StmtKind::LSet { var, value: self.text(below) }
      }
      37 => StmtKind::New(self.rest("NEW")),
      38 => self.next(),
      39 => self.word("NORMAL", StmtKind::Normal),
      40 => self.word("NOTRACE", StmtKind::NoTrace),
      41 => {
        self.line.put("ON ");
        let cond = self.num(below);
        let is_sub = self.rng.chance(50);
        self.line.put(if is_sub { " GOSUB " } else { " GOTO " });
        let mut labels = vec![];
        for _ in 0..self.rng.between(1, 4) {
          let item = match self.label() {
            Some((range, label)) => (range, Some(label)),
            None => (Range::empty(self.line.at()), None),
          };
          labels.push(item);
          self.line.put(",");
        }
        let labels = NonEmptyVec::new(labels).unwrap();
        StmtKind::On { cond, labels, is_sub }
      }
      42 => self.open(below),
      43 => {
        self.line.put("PAINT ");
        StmtKind::Paint(self.draw(below, 5, 6))
      }
      44 => {
        self.line.put("PLAY ");
        StmtKind::Play(self.text(below))
      }
      45 => {
        let (addr, value) = self.two(below, "POKE ", Want::Num, Want::Num);
        StmtKind::Poke { addr, value }
      }
      46 => self.word("POP", StmtKind::Pop),
      47 => self.print(below),
      48 => {
        let (filenum, record) = self.two(below, "PUT #", Want::Num, Want::Num);
        StmtKind::Put { filenum, record }
      }
      49 => {
        self.line.put("READ ");
        let mut vars = vec![];
        for _ in 0..self.rng.between(1, 3) {
          vars.push(self.any_place(below));
          self.line.put(",");
        }
        StmtKind::Read(NonEmptyVec::new(vars).unwrap())
      }
      51 => StmtKind::Rename(self.rest("RENAME")),
      52 => {
        self.line.put("RESTORE ");
        StmtKind::Restore(self.label())
      }
      53 => self.word("RETURN", StmtKind::Return),
      54 => {
        self.line.put("RSET ");
        let var = self.place(below, Want::Text);
        self.line.put("=");
        StmtKind::RSet { var, value: self.text(below) }
      }
      55 => StmtKind::Run(self.rest("RUN")),
      56 => StmtKind::Save(self.rest("SAVE")),
      57 => StmtKind::Stop(self.rest("STOP")),
      58 => {
        self.line.put("SWAP ");
        let want = *self.rng.pick(&[Want::Num, Want::Text]);
        let left = self.place(below, want);
        self.line.put(",");
        let right = self.place(below, want);
        StmtKind::Swap { left, right }
      }
      59 if self.style.wrong > 0 => self.word("SYSTEM", StmtKind::System),
      60 => self.word("TEXT", StmtKind::Text),
      61 => self.word("TRACE", StmtKind::Trace),
      62 => self.word("WEND", StmtKind::Wend),
      63 => {
        self.line.put("WHILE ");
        StmtKind::While(self.num(below))
      }
      64 => self.write(below),
      65 => {
        self.line.put("SLEEP ");
        StmtKind::Sleep(self.num(below))
      }
      66 => {
        let (filenum, value) =
          self.two(below, "FPUTC #", Want::Num, Want::Text);
        StmtKind::Fputc { filenum, value }
      }
      67 => {
        let (filenum, addr) = self.two(below, "FREAD #", Want::Num, Want::Num);
        self.line.put(",");
        StmtKind::Fread { filenum, addr, size: self.num(below) }
      }
      68 => {
        let (filenum, addr) = self.two(below, "FWRITE #", Want::Num, Want::Num);
        self.line.put(",");
        StmtKind::Fwrite { filenum, addr, size: self.num(below) }
      }
      70 => {
        self.line.put("DEBUGPRINT ");
        StmtKind::DebugPrint { value: self.text(below) }
      }
      71 => StmtKind::NoOp,
      _ => StmtKind::Rem(self.rest("REM")),
    }
  }

  fn word(&mut self, word: &str, kind: StmtKind) -> StmtKind {
    self.line.put(word);
    kind
  }

  fn two(
    &mut self,
    below: usize,
    word: &str,
    first: Want,
    second: Want,
  ) -> (ExprId, ExprId) {
    self.line.put(word);
    let first = self.expr(below, first);
    self.line.put(",");
    (first, self.expr(below, second))
  }

  fn option(&mut self, before: &str, below: usize) -> Option<ExprId> {
    self.rng.chance(55).then(|| {
      self.line.put(before);
      self.num(below)
    })
  }

  fn array(&mut self, depth: usize) -> ExprId {
    let start = self.line.at();
    let want = *self.rng.pick(&[Want::Num, Want::Text]);
    let name = if self.missing() { None } else { Some(self.name(want)) };
    if depth >= 64 {
      return self.line.missing();
    }
    let indices = self.args(depth + 1, &[Want::Num], 1, 3);
    let range = self.line.since(start);
    self.line.expr(ExprKind::Index { name, indices }, range)
  }

  fn data(&mut self) -> StmtKind {
    self.line.put("DATA ");
    let mut data = vec![];
    for _ in 0..self.rng.between(1, 4) {
      let datum = match self.rng.below(10) {
        0..4 => Datum { range: self.quoted(), is_quoted: true },
        4 => {
          // Few units; one quote alone among them.
          let text = *self.rng.pick(&["\"", "\"\"", "\"A", "X", "\"\"\""]);
          Datum { range: self.line.put(text), is_quoted: true }
        }
        5 => Datum { range: self.quoted(), is_quoted: false },
        6 => Datum { range: self.line.put(""), is_quoted: false },
        _ => {
          let text =
            *self.rng.pick(&["1", "-2.5", "PINE", "OAK TREE", "\u{677e}"]);
          Datum { range: self.line.put(text), is_quoted: false }
        }
      };
      data.push(datum);
      self.line.put(",");
    }
    StmtKind::Data(NonEmptyVec::new(data).unwrap())
  }

  fn input(&mut self, below: usize) -> StmtKind {
    self.line.put("INPUT ");
    let source = match self.rng.below(3) {
      0 => InputSource::Keyboard(None),
      1 => InputSource::Keyboard(Some(self.quoted())),
      _ => {
        self.line.put("#");
        InputSource::File(self.num(below))
      }
    };
    let file = matches!(source, InputSource::File(_));
    let mut vars = vec![];
    for _ in 0..self.rng.between(1, 3) {
      self.line.put(",");
      let wrong = self.style.wrong;
      let function =
        if file { self.rng.chance(wrong) } else { self.rng.chance(30) };
      if !function {
        vars.push(self.any_place(below));
        continue;
      }
      let start = self.line.put("FN ").start;
      let func = self.real_name();
      self.line.put("(");
      let arg = if below >= 64 {
        None
      } else if self.rng.chance(wrong) {
        Some(self.num(below + 1))
      } else {
        self.real_name().map(|range| self.line.expr(ExprKind::Ident, range))
      };
      let Some(arg) = arg else {
        vars.push(self.line.missing());
        continue;
      };
      self.line.put(")");
      let range = self.line.since(start);
      let range = self.span(range);
      vars.push(self.line.expr(ExprKind::UserFuncCall { func, arg }, range));
    }
    StmtKind::Input { source, vars: NonEmptyVec::new(vars).unwrap() }
  }

  fn load(&mut self, below: usize) -> StmtKind {
    self.line.put("LOAD ");
    let mut args = vec![self.num(below)];
    let odd = self.rng.chance(40);
    for _ in 0..self.rng.below(5) {
      self.line.put(",");
      if odd && self.rng.chance(40) {
        let bad = [
          "+5",
          "0 07",
          "256",
          "-1",
          "",
          "1.5",
          " 12 ",
          "+",
          "+0255",
          "1E1",
          "\u{ff11}",
          "00000000000000000009",
          "-0",
          "+ 8",
          "0x1",
          "65536",
        ];
        let text = *self.rng.pick(&bad);
        let value = match text.replace([' ', '+'], "").parse::<u64>() {
          Ok(n) => value(n, 0),
          Err(_) => self.any_value(),
        };
        args.push(self.line.number(text, value));
      } else if odd && self.rng.chance(10) {
        args.push(self.expr(below, Want::Num));
      } else {
        let n = self.rng.below(256) as u64;
        args.push(self.line.int(n));
      }
    }
    StmtKind::Load(NonEmptyVec::new(args).unwrap())
  }

  fn next(&mut self) -> StmtKind {
    self.line.put("NEXT ");
    let mut vars = vec![];
    for _ in 0..*self.rng.pick(&[0, 1, 1, 1, 2, 3]) {
      let absent = self.rng.chance(10);
      vars.push(if absent { None } else { self.real_name() });
      self.line.put(",");
    }
    StmtKind::Next { vars: SmallVec(vars) }
  }

  fn open(&mut self, below: usize) -> StmtKind {
    self.line.put("OPEN ");
    let filename = self.text(below);
    let len_too = self.rng.chance(50);
    let missing = self.style.missing;
    let wrong = self.style.wrong;
    let mode = if self.rng.chance(missing) {
      FileMode::Error
    } else if len_too && !self.rng.chance(wrong) {
      FileMode::Random
    } else {
      *self.rng.pick(&FILE_MODES[1..])
    };
    self.line.put(&format!(" FOR {mode:?} AS #"));
    let filenum = self.num(below);
    let len = len_too.then(|| {
      let start = self.line.put(" LEN=").start;
      let len = self.num(below);
      let range = self.line.since(start);
      (self.span(range), len)
    });
    StmtKind::Open { filename, mode, filenum, len }
  }

  fn print(&mut self, below: usize) -> StmtKind {
    self.line.put("PRINT ");
    let mut elems = vec![];
    for _ in 0..self.rng.below(5) {
      let elem = match self.rng.below(6) {
        0 => {
          let range = self.line.put(",");
          PrintElement::Comma(self.span(range))
        }
        1 => {
          let range = self.line.put(";");
          PrintElement::Semicolon(self.span(range))
        }
        2 if below < 64 => {
          let start = self.line.at();
          let kind = *self.rng.pick(&[SysFuncKind::Tab, SysFuncKind::Spc]);
          let range = self.line.put(&format!("{kind:?}"));
          let func = (self.span(range), kind);
          let args = self.sys_args(below + 1, kind);
          let range = self.line.since(start);
          let range = self.span(range);
          let kind = ExprKind::SysFuncCall { func, args };
          PrintElement::Expr(self.line.expr(kind, range))
        }
        _ => {
          let want = *self.rng.pick(&[Want::Num, Want::Text]);
          PrintElement::Expr(self.expr(below, want))
        }
      };
      elems.push(elem);
    }
    StmtKind::Print(SmallVec(elems))
  }

  fn write(&mut self, below: usize) -> StmtKind {
    self.line.put("WRITE ");
    let filenum = self.option("#", below);
    let mut data = vec![];
    for _ in 0..self.rng.between(1, 4) {
      let want = *self.rng.pick(&[Want::Num, Want::Text]);
      let datum = self.expr(below, want);
      let comma = self.rng.chance(80);
      if comma {
        self.line.put(",");
      }
      data.push(WriteElement { datum, comma });
    }
    StmtKind::Write { filenum, data: NonEmptyVec::new(data).unwrap() }
  }

  // ------------------------------------------------------------ themes

  /// Delays and near misses, with something or nothing before them.
  fn delay_line(&mut self) -> Vec<StmtId> {
    let mut stmts = vec![];
    // FOR then stands at address 1, 2, 3 or later.
    for _ in 0..*self.rng.pick(&[0, 0, 0, 1, 1, 2]) {
      let before = *self.rng.pick(&[71, 7, 50, 11, 31, 47, 63]);
      stmts.push(self.stmt(1, before));
      self.line.put(":");
    }
    for _ in 0..self.rng.between(1, 2) {
      self.delay(&mut stmts);
    }
    stmts
  }

  fn delay(&mut self, stmts: &mut Vec<StmtId>) {
    let begin = self.line.put("FOR ").start;
    let counter = *self.rng.pick(&["I", "I", "J", "I J", "I%", "i"]);
    let var =
      if self.rng.chance(95) { Some(self.line.put(counter)) } else { None };
    self.line.put("=");
    let start = match self.rng.below(10) {
      0..4 => self.line.int(0),
      4..7 => self.line.int(1),
      7 => self.line.int(2),
      8 => self.line.missing(),
      _ => self.num(2),
    };
    self.line.put(" TO ");
    let end = match self.rng.below(14) {
      0 => self.line.int(0),
      1 | 2 => self.line.int(12),
      3 | 4 => self.line.number("12.5", value(25, 1)),
      5 => self.line.number(".25", value(1, 2)),
      6 => self.line.ident("N"),
      7 => self.line.ident("N%"),
      8 => self.line.ident("N$"),
      9 => self.array(2),
      10 => {
        let value = self.any_value();
        self.line.number("9", value)
      }
      11 => self.line.number("1E39", TOO_LARGE),
      12 => self.line.missing(),
      _ => {
        let places = self.rng.between(0, 31) as u32;
        let m = self.rng.next() % (1 << 32);
        self.line.number(&decimal(m, places), value(m, places))
      }
    };
    let step = match self.rng.below(10) {
      0..5 => None,
      5..8 => {
        self.line.put(" STEP ");
        Some(self.line.int(1))
      }
      8 => Some(self.line.int(2)),
      _ => Some(self.num(2)),
    };
    let range = self.line.since(begin);
    stmts.push(self.line.stmt(StmtKind::For { var, start, end, step }, range));
    self.line.put(":");
    if self.rng.chance(15) {
      let between = *self.rng.pick(&[71, 50, 7, 62, 3]);
      stmts.push(self.stmt(1, between));
      self.line.put(":");
    }
    let begin = self.line.put("NEXT").start;
    let vars = match self.rng.below(12) {
      0..4 => vec![],
      4..8 => vec![Some(self.line.put(counter))],
      8 => vec![Some(self.line.put("J"))],
      9 => vec![None],
      10 => {
        let first = self.line.put("I");
        self.line.put(",");
        vec![Some(first), Some(self.line.put("K"))]
      }
      _ => return,
    };
    let range = self.line.since(begin);
    let kind = StmtKind::Next { vars: SmallVec(vars) };
    stmts.push(self.line.stmt(kind, range));
  }

  /// WHILEs and WENDs, matched or not.
  fn loop_line(&mut self) -> Vec<StmtId> {
    let mut stmts = vec![];
    let share = *self.rng.pick(&[30, 50, 70]);
    for _ in 0..self.rng.between(1, 5) {
      let case = match self.rng.below(100) {
        n if n < share => 63,
        n if n < 90 => 62,
        _ => *self.rng.pick(&[7, 26, 50]),
      };
      stmts.push(self.stmt(1, case));
      self.line.put(":");
    }
    stmts
  }

  /// DATA, READ and RESTORE, inside IF too.
  fn data_line(&mut self) -> Vec<StmtId> {
    let mut stmts = vec![];
    for _ in 0..self.rng.between(1, 3) {
      let case = *self.rng.pick(&[10, 10, 52, 52, 49, 26]);
      let stmt = if case == 26 {
        let start = self.line.put("IF ").start;
        let cond = self.line.int(1);
        self.line.put(" THEN ");
        let inner = *self.rng.pick(&[10, 52]);
        let conseq = SmallVec(vec![self.stmt(2, inner)]);
        let range = self.line.since(start);
        self.line.stmt(StmtKind::If { cond, conseq, alt: None }, range)
      } else {
        self.stmt(1, case)
      };
      stmts.push(stmt);
      self.line.put(":");
    }
    stmts
  }

  /// Nesting to depth 64 and a little less.
  fn deep_line(&mut self) -> Vec<StmtId> {
    let deepest = *self.rng.pick(&[64, 64, 63, 40]);
    let ifs = *self.rng.pick(&[0, 0, 1, 30, 62]);
    let stmt = self.deep_stmt(1, ifs.min(deepest - 2), deepest);
    vec![stmt]
  }

  fn deep_stmt(&mut self, depth: usize, ifs: usize, deepest: usize) -> StmtId {
    let start = self.line.at();
    let kind = if ifs == 0 {
      self.line.put("CALL ");
      StmtKind::Call(self.deep_expr(depth + 1, deepest))
    } else {
      self.line.put("IF ");
      let cond = self.line.int(1);
      self.line.put(" THEN ");
      let inner = self.deep_stmt(depth + 1, ifs - 1, deepest);
      let inside = SmallVec(vec![inner]);
      if self.rng.chance(20) {
        let alt = Some(inside);
        StmtKind::If { cond, conseq: SmallVec(vec![]), alt }
      } else {
        StmtKind::If { cond, conseq: inside, alt: None }
      }
    };
    let range = self.line.since(start);
    self.line.stmt(kind, range)
  }

  fn deep_expr(&mut self, depth: usize, deepest: usize) -> ExprId {
    let start = self.line.at();
    if depth >= deepest {
      return self.simple(Want::Num);
    }
    let kind = match self.rng.below(5) {
      0 => {
        let lhs = self.deep_expr(depth + 1, deepest);
        let op = (self.line.put("+"), BinaryOpKind::Add);
        ExprKind::Binary { lhs, op, rhs: self.line.int(2) }
      }
      1 => {
        self.line.put("FN F(");
        let func = Some(Range::new(start + 3, start + 4));
        ExprKind::UserFuncCall { func, arg: self.deep_expr(depth + 1, deepest) }
      }
      2 => {
        let name = Some(self.line.put("A"));
        self.line.put("(");
        let inner = self.deep_expr(depth + 1, deepest);
        let indices = NonEmptyVec::new(vec![inner]).unwrap();
        ExprKind::Index { name, indices }
      }
      3 => {
        let func = (self.line.put("ABS"), SysFuncKind::Abs);
        let inner = self.deep_expr(depth + 1, deepest);
        let args = NonEmptyVec::new(vec![inner]).unwrap();
        ExprKind::SysFuncCall { func, args }
      }
      _ => {
        let op = (self.line.put("-"), UnaryOpKind::Neg);
        ExprKind::Unary { op, arg: self.deep_expr(depth + 1, deepest) }
      }
    };
    let range = self.line.since(start);
    self.line.expr(kind, range)
  }
}

/// A function's arguments and result.
fn signature(kind: SysFuncKind) -> (&'static [Want], Want) {
  use Want::{Num, Text};
  match kind {
    SysFuncKind::Point => (&[Num, Num], Num),
    SysFuncKind::Asc
    | SysFuncKind::Cvi
    | SysFuncKind::Cvs
    | SysFuncKind::Len
    | SysFuncKind::Val => (&[Text], Num),
    SysFuncKind::Mki
    | SysFuncKind::Mks
    | SysFuncKind::Chr
    | SysFuncKind::Str => (&[Num], Text),
    SysFuncKind::Left | SysFuncKind::Right => (&[Text, Num], Text),
    SysFuncKind::Mid => (&[Text, Num, Num], Text),
    _ => (&[Num], Num),
  }
}

impl Style {
  /// By turns whole and with missing parts, of right and of wrong kinds.
  fn of_round(round: u64) -> Self {
    Self {
      missing: if round % 3 == 2 { 12 } else { 0 },
      wrong: if round % 2 == 1 { 25 } else { 0 },
      odd_range: 0,
      free_value: 0,
      odd_name: 20,
      long_text: 3,
    }
  }
}

/// Inputs that the random ones seldom are: every statement's case by itself,
/// with options absent and present, from a fixed seed.
pub fn one_of_each(round: u64) -> Vec<Input> {
  let mut inputs = vec![];
  for case in 0..72 {
    let mut rng = Rng::at(0x0a11 + round, case as u64);
    let style = Style::of_round(round);
    let labels = [Some(10)];
    let mut maker = Maker {
      line: LineMaker::new(),
      rng: &mut rng,
      style,
      labels: &labels,
      budget: 6,
    };
    let label = maker.line.put("10");
    maker.line.put(" ");
    let stmt = maker.stmt(1, case);
    let line = maker.line.finish(Some((label, Label(10))), vec![stmt]);
    let mut input = input_of(vec![line]);
    lend(&mut rng, &mut input);
    inputs.push(input);
  }
  inputs
}

/// Sheets of one expression each, printed: compound ones, with missing parts
/// and wrong kinds among them, from a fixed seed.
pub fn expression_sheets(count: u64) -> Vec<Input> {
  let mut inputs = vec![];
  for index in 0..count {
    let mut rng = Rng::at(0x0e58, index);
    let style = Style::of_round(index);
    let mut maker = Maker {
      line: LineMaker::new(),
      rng: &mut rng,
      style,
      labels: &[],
      budget: 12,
    };
    let start = maker.line.at();
    maker.line.put("PRINT ");
    let want = if index % 4 == 3 { Want::Text } else { Want::Num };
    let elem = PrintElement::Expr(maker.compound(2, want));
    let range = maker.line.since(start);
    let range = maker.span(range);
    let stmt = maker.line.stmt(StmtKind::Print(SmallVec(vec![elem])), range);
    let line = maker.line.finish(None, vec![stmt]);
    let mut input = input_of(vec![line]);
    lend(&mut rng, &mut input);
    inputs.push(input);
  }
  inputs
}

/// The words of a sheet by kind, for the damage.
pub fn places_of(words: &[u32], kind: u32) -> Vec<usize> {
  (0..words.len()).filter(|&at| sheet::kind(words[at]) == kind).collect()
}
