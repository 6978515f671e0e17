//! Trees printed as BASIC text, and sheets decoded. The oracle does the same
//! with a million generated trees and texts.

use hollupsa::basic;
use hollupsa::print::{print, print_with};
use hollupsa::tree::*;
use hollupsa::walk::{Use, Visitor};

const EXAMPLES: [&str; 4] = [
  include_str!("../../../examples/delay.bas"),
  include_str!("../../../examples/diameters.bas"),
  include_str!("../../../examples/tally.bas"),
  include_str!("../../../examples/volume.bas"),
];

/// A text's canonical print, whose tree has to be the printer's.
fn printed(text: &str) -> String {
  let form = basic::read(text);
  let (printed, program) = print(&form.program, &form.units);
  assert_eq!(basic::read(&printed).program, program, "{printed}");
  printed
}

#[test]
fn the_examples_are_printed_as_they_are() {
  for text in EXAMPLES {
    assert_eq!(printed(text), text);
  }
}

#[test]
fn texts_are_printed_in_one_way() {
  let texts = [
    ("10fori=1to10", "10 FOR i=1 TO 10\n"),
    ("10 LET A = 1 : ? A", "10 A=1:PRINT A\n"),
    ("IF A GOTO 5:CLS:ELSE 6", "IF A THEN GOTO 5:CLS ELSE 6\n"),
    ("A=1::B=2:", "A=1::B=2\n"),
    ("IF A THEN DATA 1:ELSE", "IF A THEN DATA 1:ELSE\n"),
    ("A=((B+1))*(C)", "A=(B+1)*C\n"),
    ("A=-(B+1)-(-C)", "A=-(B+1)--C\n"),
    ("A=B-(C-D)^(2)", "A=B-(C-D)^2\n"),
    ("A=(B<C)AND NOT(D OR E)", "A=B<C AND NOT (D OR E)\n"),
    ("PRINT \"A\"B", "PRINT \"A\" B\n"),
    ("PRINT A\tB;1\t5", "PRINT A\tB;1\t5\n"),
    ("PRINT 1(-A);(-A)", "PRINT 1(-A);-A\n"),
    ("WRITE A*2(+B-1)", "WRITE A*2(+B-1)\n"),
    ("OPENA$FORINPUTAS1LEN=5", "OPEN A$ FOR INPUT AS #1 LEN=5\n"),
    ("OPEN A FOR RANDOM AS B LEN=5", "OPEN A FOR RANDOM AS #B LEN=5\n"),
    ("ON A GOTO 1,,3", "ON A GOTO 1,,3\n"),
    ("REM  A : B  ", "REM  A : B  \n"),
    ("DATA  A B , \"C,D\" ,", "DATA A B,\"C,D\",\n"),
    ("A=1 2", "A=1 2\n"),
    ("PRINT \"A", "PRINT \"A\"\n"),
    ("\r\n\n10", "\n\n10\n"),
  ];
  for (text, wanted) in texts {
    assert_eq!(printed(text), wanted);
  }
}

#[test]
fn what_is_missing_stays_missing() {
  let texts =
    ["LET=1\n", "A=\n", "FOR=1 TO\n", "NEXT A,\n", "OPEN \"A\" FOR AS #1\n"];
  for text in texts {
    assert_eq!(printed(text), text);
  }
}

fn range(start: usize, end: usize) -> Range {
  Range { start, end }
}

fn stmt(kind: StmtKind) -> Stmt {
  Stmt { range: range(0, 0), kind }
}

/// The print of one line of statements whose ranges cite a text.
fn line(text: &str, stmts: Vec<Stmt>) -> String {
  let units: Vec<u16> = text.encode_utf16().collect();
  let line = Line { len: units.len(), label: None, stmts };
  let program = Program { lines: vec![line] };
  let (printed, program) = print(&program, &units);
  assert_eq!(basic::read(&printed).program, program, "{printed}");
  printed
}

fn expr(kind: ExprKind, start: usize, end: usize) -> Expr {
  Expr { range: range(start, end), kind }
}

#[test]
fn what_no_text_says_is_made_sayable() {
  let name = |start, end| expr(ExprKind::Ident, start, end);
  let call = |arg| vec![stmt(StmtKind::Call(arg))];
  assert_eq!(line("TOTAL", call(name(0, 5))), "CALL V2924291021\n");
  assert_eq!(line("A OR B$", call(name(0, 7))), "CALL V10242711$\n");
  let number = |e, m| ExprKind::NumberLit(Number { e, m });
  let half = expr(number(128, 1 << 31), 0, 1);
  assert_eq!(line("7", call(half)), "CALL 0.5\n");
  let string = expr(ExprKind::StringLit, 0, 4);
  assert_eq!(line("Q\"\nA", call(string)), "CALL \"' A\"\n");
  let jump =
    StmtKind::GoTo { keyword: false, label: Some((range(0, 0), 65535)) };
  assert_eq!(line("", vec![stmt(jump)]), "GOTO 5535\n");
  let remark = StmtKind::Rem(range(0, 2));
  let stmts = vec![stmt(remark), stmt(StmtKind::Cls)];
  assert_eq!(line(" X", stmts), "REM X\nCLS\n");
  let branch = vec![stmt(StmtKind::Cls)];
  let inner = |conseq| StmtKind::If { cond: name(0, 1), conseq, alt: None };
  let outer = StmtKind::If {
    cond: name(0, 1),
    conseq: vec![stmt(inner(branch.clone())), stmt(StmtKind::Beep)],
    alt: Some(branch),
  };
  let wanted = "IF A THEN IF A THEN CLS:BEEP ELSE ELSE CLS\n";
  assert_eq!(line("A", vec![stmt(outer)]), wanted);
  let elements = [name(0, 1), expr(ExprKind::Error, 0, 0), name(0, 1)];
  let index = ExprKind::Index { name: None, indices: vec![name(0, 1)] };
  let mut elements = elements.map(PrintElement::Expr).to_vec();
  elements.push(PrintElement::Expr(expr(index, 0, 0)));
  let print = StmtKind::Print(elements);
  assert_eq!(line("A", vec![stmt(print)]), "PRINT A\tA\tV(A)\n");
}

/// Ranges outside the text, and lines longer than it, cite what is there.
#[test]
fn ranges_outside_the_text_cite_nothing() {
  let name = expr(ExprKind::Ident, 5, 9);
  let stmts =
    vec![stmt(StmtKind::Call(name)), stmt(StmtKind::Run(range(3, 1)))];
  let program = Program { lines: vec![Line { len: 9, label: None, stmts }] };
  assert_eq!(print(&program, &[]).0, "CALL V:RUN\n");
}

/// Of a range that goes on behind its line what stands in the line is cited,
/// also where units are written anew behind the line.
#[test]
fn ranges_that_end_behind_their_line_are_cut() {
  let long = |start| range(start, 999);
  let hello = |kind| line("HELLO", vec![stmt(kind)]);
  assert_eq!(hello(StmtKind::Rem(long(0))), "REMHELLO\n");
  assert_eq!(hello(StmtKind::Rem(long(900))), "REM\n");
  let name = |start| expr(ExprKind::Ident, start, 999);
  assert_eq!(hello(StmtKind::Call(name(0))), "CALL HELLO\n");
  let datum = |quoted| Datum { range: range(0, 99), quoted };
  assert_eq!(hello(StmtKind::Data(vec![datum(false)])), "DATA HELLO\n");
  assert_eq!(hello(StmtKind::Data(vec![datum(true)])), "DATA \"ELLO\"\n");
  let number = ExprKind::NumberLit(Number::from(12345.0));
  let call = vec![stmt(StmtKind::Call(expr(number, 0, 99)))];
  assert_eq!(line("12345", call), "CALL 12345\n");
  let sum = ExprKind::Index { name: None, indices: vec![name(900), name(3)] };
  let remark = stmt(StmtKind::Rem(long(2)));
  let stmts = vec![stmt(StmtKind::Call(expr(sum, 0, 999))), remark];
  assert_eq!(line("HELLO", stmts), "CALL V(V,LO):REMLLO\n");
}

/// Numbers below the asked ones that follow from a seed.
fn numbers(seed: usize) -> impl FnMut(usize) -> usize {
  let mut last = seed;
  move |below| {
    last = last.wrapping_mul(6364136223846793005).wrapping_add(seed);
    (last >> 33) % below
  }
}

/// Wherever the ranges of a tree lie, its print is read as the printer's tree.
#[test]
fn every_range_is_printed() {
  struct Anywhere<F>(F);
  impl<F: FnMut(usize) -> usize> Visitor for Anywhere<F> {
    fn range(&mut self, range: &mut Range, _: Use) {
      *range = Range { start: (self.0)(99), end: (self.0)(99) };
    }
  }
  for text in EXAMPLES {
    let form = basic::read(text);
    for seed in 1..100 {
      let mut program = form.program.clone();
      program.visit(&mut Anywhere(numbers(seed)));
      let (text, program) = print(&program, &form.units);
      assert_eq!(basic::read(&text).program, program, "{text}");
    }
  }
}

/// Whatever is chosen, the reader gives the printer's tree.
#[test]
fn every_choice_says_the_same() {
  for text in EXAMPLES {
    let form = basic::read(text);
    for chosen in 1..400 {
      let mut choose = numbers(chosen);
      let (text, program) = print_with(&form.program, &form.units, &mut choose);
      let again = basic::read(&text);
      assert!(again.is_read(), "{text}{:?}", again.problems);
      assert_eq!(again.program, program, "{text}");
    }
  }
}

// ------------------------------------------------------------------- sheets

#[test]
fn a_sheet_is_decoded_to_its_tree() {
  for text in EXAMPLES {
    let program = basic::read(text).program;
    assert_eq!(Program::decode(&program.encode()), Some(program));
  }
}

#[test]
fn words_that_are_no_tree_give_none() {
  let sheet = basic::read(EXAMPLES[3]).program.encode();
  for end in 0..sheet.len() {
    assert_eq!(Program::decode(&sheet[..end]), None, "cut at {end}");
  }
  let mut longer = sheet.clone();
  longer.push(0x0f00_0000);
  assert_eq!(Program::decode(&longer), None);
  for at in 0..sheet.len() {
    let mut wrong = sheet.clone();
    wrong[at] ^= 0x4000_0000;
    assert_eq!(Program::decode(&wrong), None, "another kind at {at}");
  }
  let line = [0x0f00_0001, 0x1000_0000, 0x0200_0000, 0x0400_0001];
  let with = |words: &[u32]| Program::decode(&[&line, words].concat());
  assert!(with(&[0x2000_0001, 0x0100_0000]).is_some());
  // No statement's case, a list without an item, an absent word that is none.
  assert_eq!(with(&[0x2000_0048, 0x0100_0000]), None);
  assert_eq!(with(&[0x2000_0031, 0x0100_0000, 0x0400_0000]), None);
  assert_eq!(with(&[0x2000_0017, 0x0100_0000, 0x0200_0001]), None);
  // A count above what follows.
  assert_eq!(Program::decode(&[0x0fff_ffff]), None);
}

#[test]
fn parts_too_deep_in_each_other_are_no_tree() {
  let signs = |count| {
    let mut sheet = vec![0x0f00_0001, 0x1000_0000, 0x0200_0000, 0x0400_0001];
    sheet.extend([0x2000_0003, 0x0100_0000]);
    for _ in 0..count {
      sheet.extend([0x2100_0006, 0x0100_0000, 0x0100_0000, 0x0900_0001]);
    }
    sheet.extend([0x2100_0009, 0x0100_0000]);
    sheet
  };
  let ifs = |count| {
    let mut sheet = vec![0x0f00_0001, 0x1000_0000, 0x0200_0000, 0x0400_0001];
    for _ in 0..count {
      sheet.extend([0x2000_001a, 0x0100_0000, 0x2100_0009, 0x0100_0000]);
      sheet.push(0x0400_0001);
    }
    sheet.extend([0x2000_0001, 0x0100_0000]);
    sheet.extend(vec![0x0200_0000; count]);
    sheet
  };
  assert_eq!(Program::decode(&signs(199)), None);
  assert_eq!(Program::decode(&signs(10_000)), None);
  assert_eq!(Program::decode(&ifs(200)), None);
  // The deepest, in the stack of a test.
  for sheet in [signs(198), ifs(199)] {
    let program = Program::decode(&sheet).expect("a tree");
    assert_eq!(program.encode(), sheet);
    print(&program, &[]);
  }
}
