//! Cases worked out by hand from document 01 and READINGS: refusals of the
//! form with their places, and listings of small programs.

use crate::ast::*;
use crate::maker::*;
use crate::run::Input;
use crate::standins::{SmallVec, Value};

/// A sheet and text with the refusal and place that the form wants, 0 and 0
/// if it takes them.
pub struct FormCase {
  pub input: Input,
  pub number: u32,
  pub place: usize,
}

fn hex(words: &str) -> Vec<u32> {
  words
    .split_whitespace()
    .map(|word| u32::from_str_radix(word, 16).unwrap())
    .collect()
}

const GOTO: &str = "0F000001 1000000A 01000002 0300000A 04000001 20000018 0100300A 05000001 0100800A 0300000A";
const LET: &str = "0F000001 10000003 02000000 04000001 2000001F 01000003 21000000 01000001 21000002 01002003 0A000081 0B008000 0B000000";
const DATA: &str = "0F000001 10000006 02000000 04000001 2000000A 01000006 04000001 01005006 05000001";
const INPUT: &str = "0F000001 1000000A 02000000 04000001 2000001C 0100000A 07000001 01006008 04000001 21000000 0100900A";
const PRINT: &str = "0F000001 10000007 02000000 04000001 2000002F 01000007 04000001 08000001 01006007";
const CALL: &str = "0F000001 10000008 02000000 04000001 20000003 01000008";

/// A base sheet with words replaced: (place, word).
type Edit = (&'static str, &'static str, &'static [(usize, u32)], u32, usize);

#[rustfmt::skip]
const EDITS: &[Edit] = &[
  ("10 GOTO 10", GOTO, &[], 0, 0),
  // The program word and the line's head.
  ("10 GOTO 10", GOTO, &[(0, 0x0E000001)], 4, 0),
  ("10 GOTO 10", GOTO, &[(0, 0x0F000000)], 4, 1),
  ("10 GOTO 10", GOTO, &[(0, 0x0F000002)], 4, 10),
  ("10 GOTO 10", GOTO, &[(0, 0x0FFFFFFF)], 4, 10),
  ("10 GOTO 10", GOTO, &[(1, 0x1100000A)], 4, 1),
  ("10 GOTO 10", GOTO, &[(1, 0x1000000B)], 6, 1),
  ("10 GOTO 10", GOTO, &[(1, 0x10000FFF)], 6, 1),
  ("10 GOTO 10", GOTO, &[(1, 0x10001000)], 4, 1),
  ("10 GOTO 10", GOTO, &[(1, 0x10000009)], 7, 6),
  ("10 GOTO 10", GOTO, &[(1, 0x10000001)], 7, 2),
  ("10 GOTO 1", GOTO, &[], 6, 1),
  ("10 GOTO 100", GOTO, &[], 6, 10),
  ("10 GOTO 100", GOTO, &[(9, 0x03010000)], 4, 9),
  // The label.
  ("10 GOTO 10", GOTO, &[(2, 0x02000001)], 4, 2),
  ("10 GOTO 10", GOTO, &[(2, 0x02000000)], 4, 3),
  ("10 GOTO 10", GOTO, &[(2, 0x03000000)], 4, 2),
  ("10 GOTO 10", GOTO, &[(2, 0x01002001)], 7, 2),
  ("10 GOTO 10", GOTO, &[(2, 0x0100000B)], 7, 2),
  ("10 GOTO 10", GOTO, &[(2, 0x0100A00A)], 0, 0),
  ("10 GOTO 10", GOTO, &[(2, 0x01FFFFFF)], 7, 2),
  ("10 GOTO 10", GOTO, &[(3, 0x0300FFFF)], 0, 0),
  ("10 GOTO 10", GOTO, &[(3, 0x03010000)], 4, 3),
  ("10 GOTO 10", GOTO, &[(3, 0x02000000)], 4, 3),
  // The statement.
  ("10 GOTO 10", GOTO, &[(4, 0x04000000)], 4, 5),
  ("10 GOTO 10", GOTO, &[(4, 0x04000002)], 4, 10),
  ("10 GOTO 10", GOTO, &[(4, 0x05000001)], 4, 4),
  ("10 GOTO 10", GOTO, &[(5, 0x20000048)], 4, 5),
  ("10 GOTO 10", GOTO, &[(5, 0x20000045)], 8, 5),
  ("10 GOTO 10", GOTO, &[(5, 0x20000045), (6, 0)], 8, 5),
  ("10 GOTO 10", GOTO, &[(5, 0x20000047)], 4, 7),
  ("10 GOTO 10", GOTO, &[(5, 0x21000000)], 4, 5),
  ("10 GOTO 10", GOTO, &[(6, 0x0100A003)], 7, 6),
  ("10 GOTO 10", GOTO, &[(6, 0x02000000)], 4, 6),
  ("10 GOTO 10", GOTO, &[(7, 0x05000000)], 0, 0),
  ("10 GOTO 10", GOTO, &[(7, 0x05000002)], 4, 7),
  ("10 GOTO 10", GOTO, &[(7, 0x04000001)], 4, 7),
  ("10 GOTO 10", GOTO, &[(8, 0x02000000)], 4, 9),
  ("10 GOTO 10", GOTO, &[(9, 0x02000000)], 4, 9),
  // The lower place wins over the lower number.
  ("10 GOTO 10", GOTO, &[(6, 0x0100A003), (9, 0)], 7, 6),
  ("10 GOTO 1\u{d7ff}", GOTO, &[], 0, 0),
  // LET A=1: assigned places, names, numbers.
  ("A=1", LET, &[], 0, 0),
  ("A=1", LET, &[(6, 0x21000002)], 4, 6),
  ("A=1", LET, &[(6, 0x21000001)], 4, 6),
  ("A=1", LET, &[(6, 0x21000004)], 4, 6),
  ("A=1", LET, &[(6, 0x21000008)], 4, 6),
  ("A=1", LET, &[(6, 0x21000009)], 0, 0),
  ("A=1", LET, &[(6, 0x2100000A)], 4, 6),
  ("A=1", LET, &[(6, 0x21000007)], 4, 8),
  ("A=1", LET, &[(7, 0x01000000)], 7, 7),
  ("A=1", LET, &[(7, 0x01000002)], 7, 7),
  ("A=1", LET, &[(7, 0x01002003)], 7, 7),
  ("A=1", LET, &[(6, 0x21000009), (7, 0x01002003)], 0, 0),
  ("A=1", LET, &[(8, 0x21000001)], 4, 10),
  ("A=1", LET, &[(8, 0x21000001), (9, 0x01002002)], 7, 9),
  ("A=1", LET, &[(8, 0x2100000A)], 4, 8),
  ("A=1", LET, &[(9, 0x01002002)], 0, 0),
  ("A=1", LET, &[(10, 0x0A000101)], 4, 10),
  ("A=1", LET, &[(10, 0x0B000000)], 4, 10),
  ("A=1", LET, &[(10, 0x0A000000)], 4, 11),
  ("A=1", LET, &[(10, 0x0A000000), (11, 0x0B000000)], 0, 0),
  ("A=1", LET, &[(10, 0x0A000000), (11, 0x0B000000), (12, 0x0B000001)], 4, 12),
  ("A=1", LET, &[(10, 0x0A000100)], 4, 11),
  ("A=1", LET, &[(10, 0x0A000100), (11, 0x0B000000)], 0, 0),
  ("A=1", LET, &[(10, 0x0A000001)], 0, 0),
  ("A=1", LET, &[(10, 0x0A0000FF)], 0, 0),
  ("A=1", LET, &[(11, 0x0B007FFF)], 4, 11),
  ("A=1", LET, &[(11, 0x0B00FFFF)], 0, 0),
  ("A=1", LET, &[(11, 0x0B010000)], 4, 11),
  ("A=1", LET, &[(11, 0x0A008000)], 4, 11),
  ("A=1", LET, &[(12, 0x0B00FFFF)], 0, 0),
  ("A=1", LET, &[(12, 0x0B010000)], 4, 12),
  // A quoted datum without a unit: at its range, if the 05 can stand.
  ("DATA \"", DATA, &[], 0, 0),
  ("DATA X", DATA, &[], 0, 0),
  ("DATA \"", DATA, &[(7, 0x01005005)], 7, 7),
  ("DATA \"", DATA, &[(7, 0x01005005), (8, 0x05000000)], 0, 0),
  ("DATA \"", DATA, &[(7, 0x01005005), (8, 0x05000002)], 4, 8),
  ("DATA \"", DATA, &[(7, 0x01005005), (8, 0x06000000)], 4, 8),
  ("DATA \"", DATA, &[(7, 0x01006005), (8, 0x05000002)], 7, 7),
  ("DATA \"", DATA, &[(6, 0x04000000)], 4, 6),
  // INPUT: source, prompt, list.
  ("INPUT \"\";A", INPUT, &[], 0, 0),
  ("INPUT \"\";A", INPUT, &[(6, 0x07000003)], 4, 6),
  ("INPUT \"\";A", INPUT, &[(6, 0x07000000)], 4, 7),
  ("INPUT \"\";A", INPUT, &[(6, 0x07000002)], 4, 7),
  ("INPUT \"\";A", INPUT, &[(7, 0x01006006)], 7, 7),
  ("INPUT \"\";A", INPUT, &[(7, 0x01006007)], 0, 0),
  ("INPUT \"\";A", INPUT, &[(7, 0x01005006)], 0, 0),
  ("INPUT \"\";A", INPUT, &[(7, 0x02000000)], 4, 7),
  ("INPUT \"\";A", INPUT, &[(8, 0x04000000)], 4, 8),
  ("INPUT \"\";A", INPUT, &[(9, 0x21000002)], 4, 9),
  ("INPUT \"\";A", INPUT, &[(9, 0x21000004)], 4, 11),
  ("INPUT \"\";A", INPUT, &[(9, 0x21000009)], 0, 0),
  // PRINT.
  ("PRINT ,", PRINT, &[], 0, 0),
  ("PRINT ,", PRINT, &[(7, 0x08000002)], 0, 0),
  ("PRINT ,", PRINT, &[(7, 0x08000003)], 4, 7),
  ("PRINT ,", PRINT, &[(7, 0x08000000)], 4, 8),
  ("PRINT ,", PRINT, &[(6, 0x04000000)], 4, 7),
];

/// The base of CALL (its words 0 to 5) and the words of its argument.
#[rustfmt::skip]
const ARGUMENTS: &[(&str, u32, usize)] = &[
  // SysFuncCall: function's range and place, then a list of at least one.
  ("21000003 01005008 01005006 09000000 04000001 21000000 01005006", 0, 0),
  ("21000003 01005008 01005006 09000021 04000001 21000000 01005006", 0, 0),
  ("21000003 01005008 01005006 09000022 04000001 21000000 01005006", 4, 9),
  ("21000003 01005008 01005006 09000000 04000000 21000000 01005006", 4, 10),
  ("21000003 01005008 01005009 09000000 04000001 21000000 01005006", 7, 8),
  // The function's range needs no name in it: "(" is units 6 to 7.
  ("21000003 01005008 01006007 09000000 04000001 21000000 01005006", 0, 0),
  // UserFuncCall: a name or absent, then the argument.
  ("21000004 01005008 01005006 21000000 01005006", 0, 0),
  ("21000004 01005008 02000000 21000000 01005006", 0, 0),
  ("21000004 01005008 01006007 21000000 01005006", 7, 8),
  ("21000004 01005008 02000001 21000000 01005006", 4, 8),
  // Binary: left, range, operator, right.
  ("21000005 01005008 21000000 01005006 01006007 0900000C 21000000 01005006", 0, 0),
  ("21000005 01005008 21000000 01005006 01006007 0900000D 21000000 01005006", 4, 11),
  ("21000005 01005008 01006007 0900000C 21000000 01005006 21000000 01005006", 4, 8),
  // Unary: range, operator, argument.
  ("21000006 01005008 01006007 09000002 21000000 01005006", 0, 0),
  ("21000006 01005008 01006007 09000003 21000000 01005006", 4, 9),
  // Index: a name or absent, then a list of at least one.
  ("21000007 01005008 02000000 04000001 21000000 01005006", 0, 0),
  ("21000007 01005008 01005006 04000000", 4, 9),
  ("21000007 01005008 01006007 04000001 21000000 01005006", 7, 8),
  ("21000008 01005008", 0, 0),
  ("21000009 01008008", 0, 0),
  ("21000009 01008009", 7, 7),
  ("2100000A 01005008", 4, 6),
  ("02000000", 4, 6),
  ("", 4, 6),
];

/// Other statements: text, the words behind the line's label, and what they
/// want. The first of these words is at place 3.
#[rustfmt::skip]
const STATEMENTS: &[(&str, &str, u32, usize)] = &[
  // ON: range, and 03 or absent for each item; 05 at last.
  ("ON A GOTO 1,", "04000001 20000029 0100000C 21000000 01003004 04000002 0100A00B 03000001 0100C00C 02000000 05000000", 0, 0),
  ("ON A GOTO 1,", "04000001 20000029 0100000C 21000000 01003004 04000002 0100A00B 03000001 02000000 05000000", 4, 11),
  ("ON A GOTO 1,", "04000001 20000029 0100000C 21000000 01003004 04000000 05000000", 4, 8),
  ("ON A GOTO 1,", "04000001 20000029 0100000C 21000000 01003004 04000001 0100A00B 02000001 05000000", 4, 10),
  // OPEN: mode; LEN is range and expression.
  ("OPEN A$,LEN=B", "04000001 2000002A 0100000D 21000000 01005007 06000005 21000000 0100C00D 0100800D 21000000 0100C00D", 0, 0),
  ("OPEN A$,LEN=B", "04000001 2000002A 0100000D 21000000 01005007 06000006 21000000 0100C00D 02000000", 4, 8),
  ("OPEN A$,LEN=B", "04000001 2000002A 0100000D 21000000 01005007 06000000 21000000 0100C00D 21000000 0100C00D", 4, 11),
  // FIELD: number, then length and variable of each; no range of a field.
  ("FIELD A,B AS C$", "04000001 20000012 0100000F 21000000 01006007 04000001 21000000 01008009 21000000 0100D00F", 0, 0),
  ("FIELD A,B AS C$", "04000001 20000012 0100000F 21000000 01006007 04000001 21000000 01008009 21000008 0100D00F", 4, 11),
  ("FIELD A,B AS C$", "04000001 20000012 0100000F 21000000 01006007 04000001 0100800F 21000000 01008009 21000000 0100D00F", 4, 9),
  // NEXT: a list of names or absent ones, empty too.
  ("NEXT A,", "04000001 20000026 01000007 04000000", 0, 0),
  ("NEXT A,", "04000001 20000026 01000007 04000002 01005006 02000000", 0, 0),
  ("NEXT A,", "04000001 20000026 01000007 04000001 01005007", 7, 7),
  // DEF and FOR: names absent or good, judged in turn.
  ("DEF A(B)=1", "04000001 2000000B 0100000A 02000000 02000000 21000009 0100A00A", 0, 0),
  ("DEF A(B)=1", "04000001 2000000B 0100000A 01004005 01005006 21000009 0100A00A", 7, 7),
  ("DEF A(B)=1", "04000001 2000000B 0100000A 01004005 01006007 21000009 0100A00A", 0, 0),
  ("FOR A%=B TO C", "04000001 20000015 0100000D 01004006 21000000 01007008 21000000 0100C00D 02000000", 0, 0),
  ("FOR A%=B TO C", "04000001 20000015 0100000D 01004006 21000000 01007008 21000000 0100C00D 21000000 0100C00D", 0, 0),
  ("FOR A%=B TO C", "04000001 20000015 0100000D 01004007 21000000 01007008 21000000 0100C00D 02000000", 7, 6),
  // IF: statements, and absent or statements.
  ("IF A:", "04000001 2000001A 01000005 21000000 01003004 04000000 02000000", 0, 0),
  ("IF A:", "04000001 2000001A 01000005 21000000 01003004 04000000 04000001 20000047 01004005", 0, 0),
  ("IF A:", "04000001 2000001A 01000005 21000000 01003004 04000000 20000047 01004005", 4, 9),
  // WRITE: file number or absent, then expression and 05 of each.
  ("WRITE A,B", "04000001 20000040 01000009 02000000 04000002 21000000 01006007 05000001 21000000 01008009 05000000", 0, 0),
  ("WRITE A,B", "04000001 20000040 01000009 02000000 04000001 21000000 01006007", 4, 10),
  // Names where the compiler never looks: DIM of an Ident.
  ("DIM =", "04000001 2000000D 01000005 04000001 21000000 01004005", 7, 8),
  ("LOCATE", "04000001 20000023 01000006 02000000 02000000", 0, 0),
  ("REM X", "04000001 20000032 01000005 01003005", 0, 0),
  ("REM X", "04000001 20000032 01000005 01003006", 7, 6),
];

/// Names, and whether they are.
const NAMES: &[(&str, bool)] = &[
  ("A", true),
  ("a", true),
  ("zZ9", true),
  ("A1", true),
  ("A B", true),
  ("A  1 b", true),
  ("A%", true),
  ("A$", true),
  ("A %", true),
  ("A  $", true),
  ("", false),
  ("1A", false),
  ("A ", false),
  (" A", false),
  ("%", false),
  ("$", false),
  (" %", false),
  ("A%%", false),
  ("A%$", false),
  ("A$B", false),
  ("A% ", false),
  ("A_B", false),
  ("A.", false),
  ("A\t", false),
  ("A\u{a0}B", false),
  ("A\u{3000}B", false),
  ("\u{ff21}", false),
  ("A\u{e9}", false),
  ("A\u{ff11}", false),
  ("A\u{ff04}", false),
];

/// IFs (63 of them, conditions missing) around other words.
fn inside_ifs(inner: &str) -> Vec<u32> {
  let mut words = hex("0F000001 10000003 02000000 04000001");
  for _ in 0..63 {
    words.extend(hex("2000001A 01000000 21000009 01000000 04000001"));
  }
  words.extend(hex(inner));
  words.extend([0x02000000; 63]);
  words
}

/// CALL of 62 unary operators (depths 2 to 63), then other words at 64.
fn inside_unaries(inner: &str) -> Vec<u32> {
  let mut words = hex("0F000001 10000003 02000000 04000001 20000003 01000000");
  for _ in 0..62 {
    words.extend(hex("21000006 01000000 01000000 09000001"));
  }
  words.extend(hex(inner));
  words
}

pub fn form_cases() -> Vec<FormCase> {
  let mut all = vec![];
  let mut add = |words: Vec<u32>, units: Vec<u16>, number, place| {
    let work = words.len();
    let (list, notes, book) = (7 * work + 16, 8 * work + 16, 4 * work + 16);
    let input = Input { words, units, list, notes, book, work };
    all.push(FormCase { input, number, place });
  };
  let units = |text: &str| -> Vec<u16> { text.encode_utf16().collect() };

  for (text, base, edits, number, place) in EDITS {
    let mut words = hex(base);
    for (at, word) in *edits {
      words[*at] = *word;
    }
    add(words, units(text), *number, *place);
  }
  // Cut short anywhere, and one word more.
  for (text, base) in
    [("10 GOTO 10", GOTO), ("A=1", LET), ("INPUT \"\";A", INPUT)]
  {
    let words = hex(base);
    for cut in 0..words.len() {
      add(words[..cut].to_vec(), units(text), 4, cut);
    }
    for more in [0, 0x02000000, 0x10000000, 0xFFFFFFFF] {
      let mut longer = words.clone();
      longer.push(more);
      add(longer, units(text), 4, words.len());
    }
  }
  for (argument, number, place) in ARGUMENTS {
    let mut words = hex(CALL);
    words.extend(hex(argument));
    add(words, units("CALL A(1"), *number, *place);
  }
  for (text, statement, number, place) in STATEMENTS {
    let text = units(text);
    let mut words =
      vec![0x0F000001, 0x10000000 + text.len() as u32, 0x02000000];
    words.extend(hex(statement));
    add(words, text, *number, *place);
  }
  for (name, good) in NAMES {
    let name = units(name);
    let mut text = units("NEXT ");
    text.extend(&name);
    let end = text.len() as u32;
    let words = vec![
      0x0F000001,
      0x10000000 + end,
      0x02000000,
      0x04000001,
      0x20000026,
      0x01000000,
      0x04000001,
      0x01005000 + end,
    ];
    let (number, place) = if *good { (0, 0) } else { (7, 7) };
    add(words, text, number, place);
  }

  // Depth: the 64th statement's own words begin at 4 + 5 × 63 = 319, the
  // 63rd expression's (depth 64) at 6 + 4 × 62 = 254.
  let a = || units("A=1");
  add(inside_ifs("20000047 01000000"), a(), 0, 0);
  add(inside_ifs("20000045 01000000"), a(), 8, 319);
  add(inside_ifs("20000048 01000000"), a(), 4, 319);
  add(inside_ifs("20000003 01000000 21000009 01000000"), a(), 5, 321);
  add(inside_ifs("20000003 01000000 2100000A 01000000"), a(), 4, 321);
  add(inside_ifs("20000003 01000000 21000009 02000000"), a(), 5, 321);
  add(inside_ifs("2000001F 01000000 21000000 01000001"), a(), 5, 321);
  add(inside_ifs("2000001F 01000000 21000002 01000001"), a(), 4, 321);
  let deep_if =
    "2000001A 01000000 21000009 01000000 04000001 20000045 01000000 02000000";
  add(inside_ifs(deep_if), a(), 5, 321);
  add(inside_ifs("20000026 01000000 04000001 01000001"), a(), 0, 0);
  add(inside_ifs("2000000A 01000000 04000001 01000001 05000001"), a(), 0, 0);
  add(inside_unaries("21000000 01000001"), a(), 0, 0);
  add(
    inside_unaries("21000006 01000000 01000000 09000001 21000000 01000001"),
    a(),
    5,
    258,
  );
  add(
    inside_unaries("21000004 01000000 02000000 21000009 01000000"),
    a(),
    5,
    257,
  );
  add(
    inside_unaries("21000004 01000000 01001002 21000009 01000000"),
    a(),
    7,
    256,
  );

  // Several lines: lengths add up, and a range is of its own line.
  let two = "0F000002 10000003 02000000 04000001 20000047 01000003 10000002 02000000 04000001 20000047 01000002";
  add(hex(two), units("A=1BC"), 0, 0);
  add(hex(two), units("A=1B"), 6, 6);
  add(hex(two), units("A=1BCD"), 6, 11);
  add(hex(&two.replace("10000003", "10000002")), units("A=1BC"), 7, 5);
  add(hex(&two.replace("01000002", "01000003")), units("A=1BC"), 7, 10);
  add(hex("0F000000"), vec![], 0, 0);
  add(hex("0F000000"), units("A"), 6, 1);
  add(hex("0F000000 0F000000"), units("A"), 4, 1);
  add(vec![], vec![], 4, 0);
  add(vec![], units("A"), 4, 0);

  // 2 before 3 before 4.
  let surrogates = [0xd800, 0xdbff, 0xdc00, 0xdfff];
  for unit in surrogates {
    let mut text = units("10 GOTO 1");
    text.push(unit);
    add(hex(GOTO), text.clone(), 2, 0);
    add(vec![], text, 2, 0);
  }
  let mut short = vec![];
  for (words, text, number) in [
    (GOTO, units("10 GOTO 10"), 3),
    (GOTO, vec![0xd800], 2),
    ("0E000000", vec![], 3),
  ] {
    let words = hex(words);
    let work = words.len() - 1;
    let input =
      Input { words, units: text, list: 99, notes: 99, book: 99, work };
    short.push(FormCase { input, number, place: 0 });
  }
  all.extend(short);
  all
}

// ---------------------------------------------------------------- readings

/// A small program, its listing and (where it matters) its book.
pub struct Reading {
  pub name: &'static str,
  pub input: Input,
  pub listing: &'static str,
  pub book: Option<Vec<[u32; 5]>>,
}

/// A line of one statement that is the whole text.
fn one(make: impl FnOnce(&mut LineMaker) -> StmtKind) -> Input {
  input_of(vec![stmt_line(make)])
}

fn stmt_line(make: impl FnOnce(&mut LineMaker) -> StmtKind) -> MadeLine {
  let mut maker = LineMaker::new();
  let kind = make(&mut maker);
  let range = maker.since(0);
  let stmt = maker.stmt(kind, range);
  maker.finish(None, vec![stmt])
}

/// A labelled line of statements; the label is not in the text.
fn at_label(
  label: u16,
  make: impl FnOnce(&mut LineMaker) -> Vec<StmtKind>,
) -> MadeLine {
  let mut maker = LineMaker::new();
  let kinds = make(&mut maker);
  let range = maker.since(0);
  let stmts =
    kinds.into_iter().map(|kind| maker.stmt(kind, range.clone())).collect();
  maker.finish(Some((Range::empty(0), Label(label))), stmts)
}

fn list<A: crate::standins::Array>(items: Vec<A::Item>) -> NonEmptyVec<A> {
  NonEmptyVec::new(items).unwrap()
}

fn sys(
  m: &mut LineMaker,
  kind: SysFuncKind,
  args: impl FnOnce(&mut LineMaker) -> Vec<ExprId>,
) -> ExprId {
  let start = m.at();
  let func = (m.put(&format!("{kind:?}")), kind);
  m.put("(");
  let args = list(args(m));
  m.put(")");
  let range = m.since(start);
  m.expr(ExprKind::SysFuncCall { func, args }, range)
}

fn open(mode: FileMode, with_len: bool) -> Input {
  one(|m| {
    m.put("OPEN ");
    let filename = m.ident("A$");
    m.put(",");
    let filenum = m.int(1);
    let len = with_len.then(|| {
      let range = m.put("LEN");
      (range, m.int(2))
    });
    StmtKind::Open { filename, mode, filenum, len }
  })
}

pub fn readings() -> Vec<Reading> {
  let mut all = vec![];
  let mut add = |name, input: Input, listing, book| {
    let words = input.words.len();
    let work = words;
    let (list, notes, book_len) =
      (7 * words + 16, 8 * words + 16, 4 * words + 16);
    let input = Input { list, notes, book: book_len, work, ..input };
    all.push(Reading { name, input, listing, book });
  };

  // 3, 23: modes, LEN.
  add(
    "OPEN INPUT",
    open(FileMode::Input, false),
    "0 0 5 0 0 0\n1 0 3 129 2147483648 0\n2 0 34 2 0 0\n3 0 2 17 0 0\n",
    None,
  );
  add(
    "OPEN BINARY",
    open(FileMode::Binary, false),
    "0 0 5 0 0 0\n1 0 3 129 2147483648 0\n2 0 34 5 0 0\n3 0 2 17 0 0\n",
    None,
  );
  add(
    "OPEN RANDOM LEN",
    open(FileMode::Random, true),
    "0 0 5 0 0 0\n1 0 3 129 2147483648 0\n2 0 3 130 2147483648 0\n3 0 34 1 1 0\n4 0 2 17 0 0\n",
    None,
  );
  add(
    "OPEN APPEND LEN",
    open(FileMode::Append, true),
    "0 0 5 0 0 0\n1 0 3 129 2147483648 0\n2 0 3 130 2147483648 0\n3 0 34 4 1 0\n4 0 2 17 0 0\nnote 12 0 9 12\n",
    None,
  );
  add(
    "OPEN ? LEN",
    open(FileMode::Error, true),
    "0 0 5 0 0 0\n1 0 3 129 2147483648 0\n2 0 3 130 2147483648 0\n3 0 2 17 0 0\n",
    None,
  );
  add(
    "OPEN ?",
    open(FileMode::Error, false),
    "0 0 5 0 0 0\n1 0 3 129 2147483648 0\n2 0 34 0 0 0\n3 0 2 17 0 0\n",
    None,
  );

  // 5, 37, 44: missing targets stay all ones; an omitted label is 0; notes
  // of closing up come last, the later line's own note before them.
  let input = input_of(vec![
    at_label(10, |m| {
      m.put("GOTO ");
      let label = Some((m.put("99"), Label(99)));
      vec![
        StmtKind::GoTo { has_goto_keyword: true, label },
        StmtKind::GoSub(None),
      ]
    }),
    at_label(10, |_| vec![StmtKind::NoOp]),
  ]);
  add(
    "missing targets",
    input,
    "0 0 20 4294967295 0 0\n1 0 21 4294967295 0 0\n2 1 1 0 0 0\n3 1 2 17 0 0\nnote 1 1 0 0\nnote 2 0 5 7\nnote 2 0 0 7\n",
    None,
  );

  // The last line of a label is its address, the first DATA its index; the
  // label of a line without DATA is missing for RESTORE (24, 39).
  let input = input_of(vec![
    at_label(10, |m| {
      m.put("A");
      let datum = || Datum { range: Range::new(0, 1), is_quoted: false };
      vec![StmtKind::Data(list(vec![datum()])), StmtKind::NoOp]
    }),
    at_label(10, |m| {
      m.put("B");
      let datum = || Datum { range: Range::new(0, 1), is_quoted: false };
      vec![StmtKind::Data(list(vec![datum()])), StmtKind::NoOp]
    }),
    at_label(20, |m| {
      m.put("C");
      let to = |label| Some((Range::new(0, 1), Label(label)));
      vec![
        StmtKind::Restore(to(10)),
        StmtKind::Restore(to(20)),
        StmtKind::Restore(None),
        StmtKind::GoTo { has_goto_keyword: false, label: to(10) },
      ]
    }),
  ]);
  add(
    "last address, first DATA",
    input,
    "0 0 1 0 0 0\n1 1 1 0 0 0\n2 2 31 0 0 0\n3 2 31 0 0 0\n4 2 31 0 0 0\n5 2 20 1 0 0\n6 2 2 17 0 0\nnote 1 1 0 0\nnote 3 2 0 1\n",
    Some(vec![[51, 0, 0, 1, 0], [51, 1, 1, 1, 0]]),
  );

  // 7: too few and too many arguments.
  let input = one(|m| {
    m.put("CALL ");
    StmtKind::Call(sys(m, SysFuncKind::Point, |m| vec![m.int(1)]))
  });
  add(
    "POINT of one",
    input,
    "0 0 3 129 2147483648 0\n1 0 11 29 1 0\n2 0 2 3 1 0\n3 0 2 17 0 0\nnote 6 0 5 13\n",
    None,
  );
  let input = one(|m| {
    m.put("CALL ");
    StmtKind::Call(sys(m, SysFuncKind::Abs, |m| vec![m.int(0), m.int(0)]))
  });
  add(
    "ABS of two",
    input,
    "0 0 3 0 0 0\n1 0 3 0 0 0\n2 0 11 0 2 0\n3 0 2 3 1 0\n4 0 2 17 0 0\nnote 7 0 5 12\n",
    None,
  );
  let input = one(|m| {
    m.put("PLAY ");
    StmtKind::Play(sys(m, SysFuncKind::Mid, |m| vec![m.ident("A$")]))
  });
  add(
    "MID$ of one",
    input,
    "0 0 5 0 0 0\n1 0 11 14 1 0\n2 0 2 44 1 0\n3 0 2 17 0 0\nnote 6 0 5 13\n",
    None,
  );
  let input = one(|m| {
    m.put("PLAY ");
    StmtKind::Play(sys(m, SysFuncKind::Mid, |m| {
      vec![m.ident("A$"), m.int(0), m.int(0), m.int(0)]
    }))
  });
  add(
    "MID$ of four",
    input,
    "0 0 5 0 0 0\n1 0 3 0 0 0\n2 0 3 0 0 0\n3 0 3 0 0 0\n4 0 11 14 4 0\n5 0 2 44 1 0\n6 0 2 17 0 0\nnote 7 0 5 16\n",
    None,
  );
  let input = one(|m| {
    m.put("DRAW ");
    StmtKind::Draw(list(vec![m.int(0)]))
  });
  add("DRAW of one", input, "0 0 3 0 0 0\n1 0 2 17 0 0\nnote 6 0 0 6\n", None);
  let input = one(|m| {
    m.put("DRAW ");
    StmtKind::Draw(list((0..5).map(|_| m.ident("A")).collect()))
  });
  add(
    "DRAW of five",
    input,
    "0 0 5 0 0 0\n1 0 5 0 0 0\n2 0 5 0 0 0\n3 0 5 0 0 0\n4 0 5 0 0 0\n5 0 2 17 0 0\nnote 7 0 8 9\nnote 7 0 9 10\n",
    None,
  );
  let input = one(|m| {
    m.put("LOAD ");
    StmtKind::Load(list(vec![m.int(0)]))
  });
  add(
    "LOAD without bytes",
    input,
    "0 0 3 0 0 0\n1 0 2 17 0 0\nnote 6 0 0 6\n",
    None,
  );

  // 25: FOR wants a real counter, NEXT lets an integer pass.
  let input = one(|m| {
    m.put("FOR ");
    let var = Some(m.put("A%"));
    let (start, end) = (m.ident("B"), m.ident("C"));
    StmtKind::For { var, start, end, step: None }
  });
  add(
    "FOR A%",
    input,
    "0 0 5 1 0 0\n1 0 5 2 0 0\n2 0 23 0 0 0\n3 0 2 17 0 0\nnote 5 0 4 6\n",
    Some(vec![[50, 0, 4, 1, 37], [50, 1, 6, 1, 0], [50, 2, 7, 1, 0]]),
  );
  let input = one(|m| {
    m.put("NEXT ");
    let vars = vec![Some(m.put("A%")), None, Some(m.put("a$"))];
    StmtKind::Next { vars: SmallVec(vars) }
  });
  add(
    "NEXT A%, ?, a$",
    input,
    "0 0 24 1 0 0\n1 0 24 2 0 0\n2 0 2 17 0 0\nnote 5 0 7 9\n",
    Some(vec![[50, 0, 5, 1, 37], [50, 1, 7, 1, 36]]),
  );
  // A list of absent names is not an empty one.
  let input = one(|m| {
    m.put("NEXT");
    StmtKind::Next { vars: SmallVec(vec![None]) }
  });
  add("NEXT ?", input, "0 0 2 17 0 0\n", Some(vec![]));

  // 26: TAB as an element, and inside one.
  let input = one(|m| {
    m.put("PRINT ");
    let tab = sys(m, SysFuncKind::Tab, |m| vec![m.int(2)]);
    StmtKind::Print(SmallVec(vec![PrintElement::Expr(tab)]))
  });
  add(
    "PRINT TAB",
    input,
    "0 0 3 130 2147483648 0\n1 0 41 0 0 0\n2 0 42 0 0 0\n3 0 43 0 0 0\n4 0 2 17 0 0\n",
    None,
  );
  let input = one(|m| {
    m.put("PRINT ");
    let start = m.at();
    let lhs = m.int(1);
    let op = (m.put("+"), BinaryOpKind::Add);
    let rhs = sys(m, SysFuncKind::Tab, |m| vec![m.int(2)]);
    let range = m.since(start);
    let sum = m.expr(ExprKind::Binary { lhs, op, rhs }, range);
    StmtKind::Print(SmallVec(vec![PrintElement::Expr(sum)]))
  });
  add(
    "PRINT 1+TAB",
    input,
    "0 0 3 129 2147483648 0\n1 0 3 130 2147483648 0\n2 0 11 27 1 0\n3 0 14 6 0 0\n4 0 38 0 0 0\n5 0 42 0 0 0\n6 0 43 0 0 0\n7 0 2 17 0 0\nnote 12 0 8 11\n",
    None,
  );

  // 27, 34: INPUT's function; from a file it makes no name.
  let func = |file: bool, arg: &'static str| {
    one(move |m| {
      m.put("INPUT ");
      let source = if file {
        InputSource::File(m.int(0))
      } else {
        InputSource::Keyboard(None)
      };
      let start = m.at();
      let func = Some(m.put("F"));
      m.put("(");
      let arg = if arg.is_empty() { m.missing() } else { m.ident(arg) };
      m.put(")");
      let range = m.since(start);
      let var = m.expr(ExprKind::UserFuncCall { func, arg }, range);
      StmtKind::Input { source, vars: list(vec![var]) }
    })
  };
  add(
    "INPUT F(X)",
    func(false, "X"),
    "0 0 9 0 1 0\n1 0 32 0 1 0\n2 0 2 17 0 0\n",
    Some(vec![[50, 0, 6, 1, 0], [50, 1, 8, 1, 0]]),
  );
  add(
    "INPUT F(X%)",
    func(false, "X%"),
    "0 0 9 0 1 0\n1 0 32 0 1 0\n2 0 2 17 0 0\nnote 5 0 8 10\n",
    None,
  );
  add(
    "INPUT F(?)",
    func(false, ""),
    "0 0 32 0 1 0\n1 0 2 17 0 0\nnote 12 0 8 8\n",
    Some(vec![[50, 0, 6, 1, 0]]),
  );
  // An argument that is no variable is not compiled: A makes no name.
  let input = one(|m| {
    let func = Some(m.put("F"));
    let name = Some(m.put("A"));
    let indices = list(vec![m.int(1)]);
    let arg = m.expr(ExprKind::Index { name, indices }, Range::new(1, 3));
    let var = m.expr(ExprKind::UserFuncCall { func, arg }, Range::new(0, 3));
    let source = InputSource::Keyboard(None);
    StmtKind::Input { source, vars: list(vec![var]) }
  });
  add(
    "INPUT F(A(1))",
    input,
    "0 0 32 0 1 0\n1 0 2 17 0 0\nnote 12 0 1 3\n",
    Some(vec![[50, 0, 0, 1, 0]]),
  );
  add(
    "INPUT #0,F(X)",
    func(true, "X"),
    "0 0 3 0 0 0\n1 0 33 1 0 0\n2 0 2 17 0 0\nnote 12 0 7 11\n",
    Some(vec![]),
  );

  // 29: unary plus, INKEY$ as a statement and no-ops are a record each.
  let input = input_of(vec![at_label(0, |_| {
    vec![StmtKind::InKey, StmtKind::NoOp, StmtKind::Run(Range::empty(0))]
  })]);
  add(
    "INKEY$: :RUN",
    input,
    "0 0 2 27 0 0\n1 0 1 0 0 0\n2 0 2 55 0 0\n3 0 2 17 0 0\n",
    None,
  );

  // 30, 31, 32: delays are judged on records.
  let delay = |between: bool, plus: bool, end: (&'static str, Value)| {
    input_of(vec![at_label(0, move |m| {
      let var = Some(m.put("I"));
      let start = m.int(0);
      let mut last = m.number(end.0, end.1);
      if end.0 == "N$" {
        last = m.expr(ExprKind::Ident, Range::new(2, 4));
      }
      if plus {
        let op = (Range::empty(0), UnaryOpKind::Pos);
        let kind = ExprKind::Unary { op, arg: last };
        last = m.expr(kind, Range::empty(0));
      }
      let first = StmtKind::For { var, start, end: last, step: None };
      let next = StmtKind::Next { vars: SmallVec(vec![]) };
      if between {
        vec![first, StmtKind::NoOp, next]
      } else {
        vec![first, next]
      }
    })])
  };
  let five = ("5", value(5, 0));
  add(
    "delay with a no-op",
    delay(true, false, five),
    "0 0 3 0 0 0\n1 0 3 131 2684354560 0\n2 0 23 0 0 0\n3 0 1 0 0 0\n4 0 24 0 0 0\n5 0 2 17 0 0\n",
    None,
  );
  add(
    "delay to +5",
    delay(false, true, five),
    "0 0 3 0 0 0\n1 0 3 131 2684354560 0\n2 0 13 2 0 0\n3 0 23 0 0 0\n4 0 24 0 0 0\n5 0 2 17 0 0\n",
    None,
  );
  add(
    "delay to 0",
    delay(false, false, ("0", ZERO)),
    "0 0 3 0 0 0\n1 0 3 0 0 0\n2 0 23 0 0 0\n3 0 24 0 0 0\n4 0 2 17 0 0\n",
    None,
  );
  add(
    "delay to N$",
    delay(false, false, ("N$", ZERO)),
    "0 0 1 0 0 0\n1 0 5 1 0 0\n2 0 2 65 1 0\n3 0 1 0 0 0\n4 0 2 17 0 0\nnote 4 0 2 4\n",
    None,
  );
  // The largest number stays.
  let largest = ("1.7E38", Value { e: 255, m: u32::MAX });
  add(
    "delay to the largest",
    delay(false, false, largest),
    "0 0 1 0 0 0\n1 0 3 255 4294967295 0\n2 0 2 65 1 0\n3 0 1 0 0 0\n4 0 2 17 0 0\n",
    None,
  );

  // 34, 35: a name as first made, cut at the first blank, its sigil kept; a
  // warning at every use, before class 5.
  let input = one(|m| {
    let var = Some(m.put("dia one$"));
    let start = m.ident("DIA");
    let end = m.ident("Dia two$");
    StmtKind::For { var, start, end, step: None }
  });
  add(
    "names cut",
    input,
    "0 0 5 1 0 0\n1 0 5 0 0 0\n2 0 23 0 0 0\n3 0 2 17 0 0\nnote 10 0 0 8\nnote 5 0 0 8\nnote 10 0 11 19\nnote 4 0 11 19\n",
    Some(vec![[50, 0, 0, 3, 36], [50, 1, 8, 3, 0]]),
  );
  let input = one(|m| {
    let var = m.ident("A %");
    StmtKind::Read(list(vec![var]))
  });
  add(
    "blank before the sigil",
    input,
    "0 0 7 0 0 0\n1 0 30 0 0 0\n2 0 2 17 0 0\nnote 10 0 0 3\n",
    Some(vec![[50, 0, 0, 1, 37]]),
  );

  // 36: one bad byte and none of the entries is made.
  let input = one(|m| {
    m.put("LOAD ");
    let args = vec![m.int(0), m.int(1), m.number("1.5", TOO_LARGE), m.int(2)];
    StmtKind::Load(list(args))
  });
  add(
    "LOAD with a bad byte",
    input,
    "0 0 3 0 0 0\n1 0 2 17 0 0\nnote 12 0 7 10\n",
    Some(vec![]),
  );

  let input = one(|m| {
    m.put("LOAD ");
    let start = m.int(0);
    m.put(",");
    let first = m.number("0 07", value(7, 0));
    m.put(",");
    let args = vec![start, first, m.number("+5", value(5, 0))];
    StmtKind::Load(list(args))
  });
  add(
    "LOAD of two",
    input,
    "0 0 3 0 0 0\n1 0 35 0 2 0\n2 0 2 17 0 0\n",
    Some(vec![[52, 0, 7, 4, 7], [52, 1, 12, 2, 5]]),
  );

  // 38: labels compared with the last one.
  let lines = |labels: &[u16]| {
    input_of(labels.iter().map(|&label| at_label(label, |_| vec![])).collect())
  };
  add(
    "labels 5, 9, 9, 3, 4",
    lines(&[5, 9, 9, 3, 4]),
    "0 4 2 17 0 0\nnote 1 2 0 0\nnote 1 3 0 0\n",
    None,
  );

  // Class 9 makes no record; a missing part makes none either.
  let input = one(|m| {
    m.put("POKE ");
    let addr = m.number("1E39", TOO_LARGE);
    StmtKind::Poke { addr, value: m.missing() }
  });
  add(
    "number too large",
    input,
    "0 0 2 45 2 0\n1 0 2 17 0 0\nnote 9 0 5 9\n",
    None,
  );

  // Class 13, last WHILE first; the middle one is closed.
  let input = input_of(vec![
    at_label(1, |m| {
      let cond = m.int(0);
      vec![StmtKind::While(cond)]
    }),
    at_label(2, |m| {
      let cond = m.int(0);
      vec![StmtKind::While(cond), StmtKind::Wend]
    }),
    at_label(3, |m| {
      let cond = m.int(0);
      vec![StmtKind::While(cond)]
    }),
  ]);
  add(
    "WHILEs",
    input,
    "0 0 3 0 0 0\n1 0 25 0 4294967295 0\n2 1 3 0 0 0\n3 1 25 2 5 0\n4 1 2 62 0 0\n5 2 3 0 0 0\n6 2 25 5 4294967295 0\n7 2 2 17 0 0\nnote 13 2 0 1\nnote 13 0 0 1\n",
    None,
  );

  // DEF: end is behind the 27; the parts of a DEF without a name still come.
  let input = one(|m| {
    m.put("DEF ");
    let name = Some(m.put("F"));
    let param = Some(m.put("X"));
    StmtKind::Def { name, param, body: m.ident("X$") }
  });
  add(
    "DEF",
    input,
    "0 0 26 0 1 3\n1 0 5 2 0 0\n2 0 27 0 0 0\n3 0 2 17 0 0\nnote 4 0 6 8\n",
    None,
  );
  let input =
    one(|m| StmtKind::Def { name: None, param: None, body: m.int(0) });
  add("DEF ?", input, "0 0 3 0 0 0\n1 0 2 17 0 0\n", None);

  // IF with and without ELSE.
  let input = input_of(vec![at_label(0, |m| {
    let no_op = |m: &mut LineMaker| m.stmt(StmtKind::NoOp, Range::empty(0));
    let (a, b, c) = (no_op(m), no_op(m), no_op(m));
    let cond = m.ident("A");
    let first = StmtKind::If {
      cond,
      conseq: SmallVec(vec![a]),
      alt: Some(SmallVec(vec![b])),
    };
    let cond = m.ident("A$");
    vec![first, StmtKind::If { cond, conseq: SmallVec(vec![c]), alt: None }]
  })]);
  add(
    "IFs",
    input,
    "0 0 5 0 0 0\n1 0 19 4 0 0\n2 0 1 0 0 0\n3 0 20 5 0 0\n4 0 1 0 0 0\n5 0 5 1 0 0\n6 0 19 8 0 0\n7 0 1 0 0 0\n8 0 2 17 0 0\nnote 4 0 1 3\n",
    None,
  );

  // WRITE: a dropped value, and to a file.
  let write = |file: bool| {
    one(move |m| {
      let filenum = file.then(|| m.int(0));
      let data = vec![
        WriteElement { datum: m.ident("A"), comma: false },
        WriteElement { datum: m.ident("B$"), comma: true },
        WriteElement { datum: m.ident("C"), comma: true },
      ];
      StmtKind::Write { filenum, data: list(data) }
    })
  };
  add(
    "WRITE",
    write(false),
    "0 0 5 0 0 0\n1 0 46 0 0 0\n2 0 5 1 0 0\n3 0 45 0 0 0\n4 0 5 2 0 0\n5 0 44 0 1 0\n6 0 43 0 0 0\n7 0 2 17 0 0\nnote 11 0 0 1\n",
    None,
  );
  add(
    "WRITE #",
    write(true),
    "0 0 3 0 0 0\n1 0 5 0 0 0\n2 0 46 0 0 0\n3 0 5 1 0 0\n4 0 45 1 0 0\n5 0 5 2 0 0\n6 0 44 1 1 0\n7 0 2 17 0 0\nnote 11 0 1 2\n",
    None,
  );

  // PRINT: a blank between expressions, none behind a mark.
  let input = one(|m| {
    let a = PrintElement::Expr(m.ident("A"));
    let b = PrintElement::Expr(m.ident("B$"));
    let mark = PrintElement::Comma(m.put(","));
    StmtKind::Print(SmallVec(vec![a, b, mark]))
  });
  add(
    "PRINT A B$,",
    input,
    "0 0 5 0 0 0\n1 0 38 0 0 0\n2 0 3 129 2147483648 0\n3 0 40 0 0 0\n4 0 5 1 0 0\n5 0 39 0 0 0\n6 0 42 0 0 0\n7 0 43 0 0 0\n8 0 2 17 0 0\n",
    None,
  );

  // SWAP, SYSTEM and the kinds of assignments.
  let input = one(|m| {
    let (left, right) = (m.ident("A"), m.ident("B%"));
    StmtKind::Swap { left, right }
  });
  add(
    "SWAP A,B%",
    input,
    "0 0 7 0 0 0\n1 0 7 1 0 0\n2 0 2 58 2 0\n3 0 2 17 0 0\nnote 4 0 0 3\n",
    None,
  );
  // A missing part fits any kind, but SWAP wants equal kinds: one missing
  // place is class 4, two are not.
  let input = one(|m| {
    let (left, right) = (m.missing(), m.ident("A"));
    StmtKind::Swap { left, right }
  });
  add(
    "SWAP ?,A",
    input,
    "0 0 7 0 0 0\n1 0 2 58 2 0\n2 0 2 17 0 0\nnote 4 0 0 1\n",
    None,
  );
  let input = one(|m| {
    let (left, right) = (m.missing(), m.missing());
    StmtKind::Swap { left, right }
  });
  add("SWAP ?,?", input, "0 0 2 58 2 0\n1 0 2 17 0 0\n", None);
  add(
    "SYSTEM",
    one(|_| StmtKind::System),
    "0 0 2 17 0 0\nnote 12 0 0 0\n",
    None,
  );
  let input = input_of(vec![at_label(0, |m| {
    let mut assign = |var: &str, value: &str| {
      let var = m.ident(var);
      let value = m.ident(value);
      StmtKind::Let { var, value }
    };
    vec![assign("A%", "B"), assign("B", "A%"), assign("C$", "B")]
  })]);
  add(
    "LETs",
    input,
    "0 0 7 0 0 0\n1 0 5 1 0 0\n2 0 16 0 0 0\n3 0 7 1 0 0\n4 0 5 0 0 0\n5 0 17 0 0 0\n6 0 7 2 0 0\n7 0 5 1 0 0\n8 0 18 0 0 0\n9 0 2 17 0 0\nnote 4 0 0 9\n",
    None,
  );

  // 21, 34: a name need not be inside its expression; FIELD's names come
  // before the file number's, an array's subscripts before its name.
  let input = one(|m| {
    let filenum = m.ident("A");
    let len = m.ident("B");
    let name = Some(m.put("C$"));
    let indices = list(vec![m.ident("D")]);
    let range = Range::new(2, 5);
    let var = m.expr(ExprKind::Index { name, indices }, range);
    let fields = list(vec![FieldSpec { range: Range::empty(0), len, var }]);
    StmtKind::Field { filenum, fields }
  });
  add(
    "FIELD",
    input,
    "0 0 5 0 0 0\n1 0 5 1 0 0\n2 0 8 2 1 0\n3 0 5 3 0 0\n4 0 29 1 0 0\n5 0 2 17 0 0\n",
    Some(vec![
      [50, 0, 1, 1, 0],
      [50, 1, 4, 1, 0],
      [50, 2, 2, 1, 36],
      [50, 3, 0, 1, 0],
    ]),
  );

  // No line at all: End is on line 0.
  add("no line", input_of(vec![]), "0 0 2 17 0 0\n", Some(vec![]));
  all
}
