//! What is told of a form: findings and their places, what was expected, and
//! refusals in words.

use hollupsa::basic::{self, Severity};
use hollupsa::check::{Checked, Code, Finding, check};
use hollupsa::compile;
use hollupsa::explain::{self, explain};
use std::collections::BTreeMap;
use std::fs;

/// Line and column from 1 in units, and the head, of each finding.
fn told(text: &str) -> Vec<String> {
  let shown = |it: &Finding| {
    let (line, column) = (it.line + 1, it.range.start + 1);
    format!("{line}:{column}-{}: {it}", it.range.end + 1)
  };
  check(text).findings.iter().map(shown).collect()
}

fn only(text: &str) -> Finding {
  let Checked { mut findings, .. } = check(text);
  assert_eq!(findings.len(), 1, "{text}: {findings:?}");
  findings.remove(0)
}

fn expected(text: &str) -> String {
  only(text).expected.expect("what was expected is told")
}

fn hint(text: &str) -> String {
  only(text).hint.expect("a hint is given")
}

// ------------------------------------------------------------------ findings

#[test]
fn a_clean_form_has_no_findings() {
  let Checked { compiled, findings, .. } = check("10 PRINT 1\n20 GOTO 10\n");
  assert_eq!(findings, []);
  assert!(compiled.is_some());
  assert!(check("").compiled.is_some());
}

#[test]
fn each_class_is_told_at_its_place() {
  let long = "X".repeat(256);
  let forms = [
    ("10 CLS\n10 CLS".to_string(), "2:1-3: error[1]: label does not rise"),
    ("10 GOTO 20".to_string(), "1:9-11: error[2]: no line has this label"),
    (
      "10 RESTORE 10".to_string(),
      "1:12-14: warning[3]: no DATA at this label: reading starts at the first datum",
    ),
    ("10 A=\"X\"".to_string(), "1:4-9: error[4]: kinds of value do not fit"),
    (
      "10 FOR I$=1 TO 2:NEXT".to_string(),
      "1:8-10: error[5]: name of the wrong kind",
    ),
    ("10 A$=LEFT$(\"X\")".to_string(), "1:7-17: error[6]: too few arguments"),
    (
      "10 CIRCLE 1,2,3,4,5,6".to_string(),
      "1:21-22: error[7]: too many arguments",
    ),
    (format!("10 A$=\"{long}\""), "1:7-265: error[8]: text longer than 255"),
    ("10 A=1E39".to_string(), "1:6-10: error[9]: number too large"),
    (
      "10 DIA Q$=\"\"".to_string(),
      "1:4-10: warning[10]: blank in a name: 2 units of the name are left out; it is cut to DIA$",
    ),
    (
      "10 WRITE 1+2,\"A\" 3".to_string(),
      "1:14-17: warning[11]: WRITE drops this value",
    ),
    ("10 SYSTEM".to_string(), "1:4-10: error[12]: not allowed here"),
    ("10 WHILE 1".to_string(), "1:4-11: error[13]: WHILE without WEND"),
  ];
  for (text, wanted) in &forms {
    assert_eq!(told(text), [*wanted], "{text}");
  }
  for (text, _) in forms {
    let Finding { expected, hint, .. } = only(&text);
    assert!(expected.is_some() || hint.is_some(), "{text}");
  }
}

#[test]
fn one_run_tells_all_in_order() {
  let text = "10 GOTO 99\n20 FOR I=\n30 A=\"X\":FSEEK #1,A$\n40 SYSTEM:PRIMT\n";
  assert_eq!(
    told(text),
    [
      "1:9-11: error[2]: no line has this label",
      "2:10-10: error: put a value here",
      "3:4-9: error[4]: kinds of value do not fit",
      "3:10-21: error[refusal 8]: FSEEK is not compiled",
      "3:19-21: error[4]: kinds of value do not fit",
      "4:4-10: error[12]: not allowed here",
      "4:11-16: error: PRIMT is no statement",
    ]
  );
  assert!(check(text).compiled.is_none());
}

/// A note that a reading error brought about is not told; another one in the
/// same line is.
#[test]
fn echoes_are_left_out() {
  // LEFT$ has one argument only because the comma is missing.
  let finding = only("10 A$=LEFT$(\"X\" 1)\n");
  assert_eq!(finding.code, Code::Reading);
  let told = told("10 A=:B=\"X\"\n");
  assert_eq!(told.len(), 2, "{told:?}");
  assert!(told[1].ends_with("error[4]: kinds of value do not fit"));
}

/// A warning of the reader brings no note about, also one in its range.
#[test]
fn notes_beside_warnings_are_told() {
  let (warning, error) = (Severity::Warning, Severity::Error);
  let reading = (warning, Code::Reading);
  let kinds = |text: &str| -> Vec<_> {
    let Checked { findings, .. } = check(text);
    findings.iter().map(|it| (it.severity, it.code)).collect()
  };
  let unclosed = format!("10 PRINT \"{}", "X".repeat(300));
  assert_eq!(kinds(&unclosed), [reading, (error, Code::Class(8))]);
  let few = (error, Code::Class(6));
  assert_eq!(kinds("10 LINE 1 2,3"), [few, reading]);
}

/// Blanks and tabs may stand between a note and the error that it echoes.
#[test]
fn echoes_are_found_behind_blanks() {
  for blanks in [" ", "\t", "  \t "] {
    assert_eq!(only(&format!("10 GOTO{blanks}X")).code, Code::Reading);
  }
}

/// What a reading error can't have brought about is told beside it.
#[test]
fn errors_beside_reading_errors_are_told() {
  for (text, code) in [
    ("10 CLS\n10 PRIMT\n", Code::Class(1)),
    ("10 WHILE\n", Code::Class(13)),
    ("10 GOTO 99 X\n", Code::Class(2)),
  ] {
    let codes: Vec<Code> =
      check(text).findings.iter().map(|it| it.code).collect();
    assert!(codes.contains(&code), "{text}: {codes:?}");
    assert!(codes.contains(&Code::Reading), "{text}: {codes:?}");
  }
  // The label that is too great is no label 0.
  assert_eq!(only("10 GOTO 99999").code, Code::Reading);
}

#[test]
fn labels_are_named() {
  assert_eq!(only("310 GOTO 5").label, Some(310));
  assert_eq!(only("GOTO 5").label, None);
}

#[test]
fn hints_name_the_nearest_labels() {
  let lines = |label: u16| format!("290 CLS\n310 GOTO {label}\n");
  assert_eq!(hint(&lines(300)), "lines 290 and 310 are there");
  assert_eq!(hint(&lines(9)), "line 290 is the first");
  assert_eq!(hint(&lines(999)), "line 310 is the last");
  assert_eq!(hint("GOTO 1"), "no line has a label");
  let omitted = only("10 GOTO");
  assert_eq!(
    omitted.expected.as_deref(),
    Some("a label; one that is left out is label 0")
  );
  let data = "10 DATA 1\n20 DATA 2\n30 RESTORE 15\n";
  assert_eq!(hint(data), "DATA lines 10 and 20 are there");
  for data in ["IF 1 THEN DATA 1", "IF 1 THEN CLS ELSE DATA 1"] {
    let text = format!("10 CLS\n20 {data}\n30 RESTORE 15\n");
    assert_eq!(hint(&text), "DATA line 20 is the first");
  }
}

#[test]
fn hints_fit_what_is_written() {
  let long = "X".repeat(300);
  let text = format!("10 A$=\"{long}\"");
  assert_eq!(expected(&text), "at most 255 letters, here are 300");
  assert!(hint(&text).contains('+'));
  assert!(hint(&format!("10 DATA {long}")).contains("two data"));
  assert_eq!(
    expected(&format!("10 DATA {long}")),
    "at most 255 letters, here are 300"
  );
  assert!(hint(&format!("10 INPUT \"{long}\";A")).contains("PRINT"));
  assert!(hint(&format!("10 IF 1 THEN INPUT \"{long}\";A")).contains("PRINT"));
  assert_eq!(expected("10 CLS\n30 CLS\n20 CLS"), "a label above 30");
  assert!(
    hint("10 CLS\n5 CLS\n40 CLS")
      .starts_with("write a label between 10 and 40")
  );
  // Between 10 and 11 there is no label, between 10 and 12 there is one.
  assert!(hint("10 CLS\n5 CLS\n11 CLS").starts_with("write a greater"));
  assert!(hint("10 CLS\n5 CLS\n12 CLS").starts_with("write a label between"));
}

// -------------------------------------------------------------- explanations

/// That the notes of the explained classes and the explanations of a form are
/// the same, in order; counts them by class.
fn explained(text: &str, counts: &mut BTreeMap<u32, usize>) {
  let form = basic::read(text);
  let compiled = match compile(&form.program.encode(), &form.units) {
    Ok(compiled) => compiled,
    Err(refusal) => panic!("{text}: {refusal}"),
  };
  let notes: Vec<_> = compiled
    .notes()
    .filter(|note| explain::CLASSES.contains(&note.class))
    .map(|note| (note.line, note.class, note.range))
    .collect();
  let explanations = explain(&form.units, &form.program);
  let explained: Vec<_> =
    explanations.iter().map(|it| (it.line, it.class, it.range)).collect();
  assert_eq!(explained, notes, "{text}\n{explanations:#?}");
  for (_, class, _) in notes {
    *counts.entry(class).or_default() += 1;
  }
}

/// Values of each kind; the last one is missing.
const VALUES: [&str; 7] = ["1", "\"X\"", "B", "B$", "B%", "B$(1)", ""];

/// Statements with places for values.
const STATEMENTS: [&str; 59] = [
  "CALL @",
  "CLOSE #@",
  "SLEEP @",
  "WHILE @:WEND",
  "PLAY @",
  "DEBUGPRINT @",
  "DRAW @",
  "DRAW @,@",
  "DRAW @,@,1",
  "DRAW 1,@,@,@",
  "CIRCLE @,@",
  "CIRCLE 1,2,3,@,5,@,@",
  "BOX 1,@,@",
  "BOX 1,2,3,4,5,@,@,@",
  "ELLIPSE 1,2,3,@,@,@",
  "ELLIPSE 1,2,3,4,5,6,@,@",
  "LINE @,@,1",
  "LINE 1,2,3,4,@,@",
  "PAINT 1,2,@,@",
  "PAINT 1,2,3,4,@,@,@",
  "A=@",
  "A$=@",
  "A%=@",
  "A(@)=@",
  "A$(@)=@+@",
  "LSET A$=@",
  "RSET A=@",
  "LSET A$(@)=@",
  "GET #@,@",
  "PUT #@,@",
  "FPUTC #@,@",
  "FREAD #@,@,@",
  "FWRITE #@,@,@",
  "POKE @,@",
  "FIELD #@,@ AS A$,@ AS B",
  "FOR I=@ TO @ STEP @:NEXT I",
  "FOR I$=@ TO @:NEXT I$",
  "FOR I%=@ TO 1:NEXT I%,I$,I",
  "IF @ THEN A=@ ELSE A$=@",
  "INPUT A(@),A$(@)",
  "INPUT #@,A,FN F(@)",
  "INPUT FN F(@),FN F$(B$)",
  "INPUT FN F%(B(@))",
  "LOAD @",
  "LOAD @,@,300,1 2",
  "LOCATE @,@",
  "ON @ GOTO 10,10",
  "OPEN @ FOR INPUT AS #@ LEN=@",
  "OPEN @ FOR RANDOM AS #@ LEN=@",
  "OPEN @ FOR OUTPUT AS #@",
  "PRINT TAB(@,@);SPC(@);@",
  "PRINT TAB(1)+@;SPC(@)-@",
  "READ A(@),B$",
  "DIM A(@,@),B,C$(@)",
  "DEF FN F(X)=@",
  "DEF FN F$(X%)=@",
  "WRITE #@,@ @,@",
  "SYSTEM",
  "A=FN F(@)+FN G$(@)",
];

const SWAPS: [&str; 6] = ["A", "B", "A%", "B$", "C(1)", ""];

/// Each way to fill the places of a statement.
fn fill(statement: &str, values: &[&str], take: &mut impl FnMut(&str)) {
  match statement.split_once('@') {
    None => take(statement),
    Some((before, behind)) => {
      for value in values {
        fill(&format!("{before}{value}{behind}"), values, take);
      }
    }
  }
}

#[test]
fn every_note_of_wrong_kinds_is_explained() {
  let (mut forms, mut counts) = (0, BTreeMap::new());
  let mut take = |statement: &str| {
    explained(&format!("10 {statement}\n"), &mut counts);
    forms += 1;
  };
  for statement in STATEMENTS {
    fill(statement, &VALUES, &mut take);
  }
  fill("SWAP @,@", &SWAPS, &mut take);
  for (word, _) in hollupsa::spelling::FUNCTIONS {
    for args in ["@", "@,@", "@,@,@", "@,1,@,@"] {
      fill(&format!("PRINT 1+{word}({args})"), &VALUES, &mut take);
    }
  }
  for (word, _) in hollupsa::spelling::OPERATORS {
    for statement in ["PRINT @ % @ = @", "A$=@ % @ + @", "PRINT NOT @ % -@"] {
      fill(&statement.replace('%', word), &VALUES, &mut take);
    }
  }
  assert!(forms > 35_000, "{forms}");
  for class in explain::CLASSES {
    assert!(counts[&class] > 100, "{counts:?}");
  }
}

/// The forms of the repository, without those that are refused.
#[test]
fn the_notes_of_stored_forms_are_explained() {
  let root = concat!(env!("CARGO_MANIFEST_DIR"), "/../..");
  let (mut forms, mut counts) = (0, BTreeMap::new());
  for folder in ["examples", "tests/forms"] {
    for file in fs::read_dir(format!("{root}/{folder}")).unwrap() {
      let path = file.unwrap().path();
      if path.extension().is_none_or(|end| end != "bas") {
        continue;
      }
      let text = fs::read_to_string(path).unwrap();
      if !is_refused(&text) {
        explained(&text, &mut counts);
        forms += 1;
      }
    }
  }
  assert!(forms >= 20 && !counts.is_empty(), "{forms} {counts:?}");
}

fn is_refused(text: &str) -> bool {
  let form = basic::read(text);
  compile(&form.program.encode(), &form.units).is_err()
}

/// Pieces that forms are made of, good ones and others.
const PIECES: [&str; 40] = [
  "10 ",
  "A",
  "A$",
  "A%",
  "B C$",
  "1",
  "2.5E3",
  "\"X\"",
  "\"",
  "=",
  "+",
  "-",
  "(",
  ")",
  ",",
  ";",
  ":",
  "#1",
  " ",
  "\t",
  "\n",
  "\r",
  "IF ",
  " THEN ",
  " ELSE ",
  "GOTO ",
  "PRINT ",
  "FN F(",
  "LEFT$(",
  "TAB(",
  "DATA ",
  "FOR I=",
  " TO ",
  "NEXT ",
  "INPUT ",
  "WRITE ",
  "FSEEK #1,",
  "松",
  "🌲",
  "\u{feff}",
];

/// Numbers that look random, the same in each run.
struct Random(u64);

impl Random {
  fn below(&mut self, end: usize) -> usize {
    self.0 = self.0.wrapping_mul(6364136223846793005).wrapping_add(1);
    (self.0 >> 33) as usize % end
  }
}

/// Takes letters out of a text, and puts pieces in.
fn spoil(text: &str, random: &mut Random) -> String {
  let mut letters: Vec<String> = text.chars().map(String::from).collect();
  for _ in 0..1 + random.below(6) {
    let at = random.below(letters.len());
    match random.below(3) {
      0 => letters[at].clear(),
      1 => letters[at] = PIECES[random.below(PIECES.len())].to_string(),
      _ => {
        let behind = (at + random.below(12)).min(letters.len());
        letters.drain(at..behind);
        letters.push("\n".to_string());
      }
    }
  }
  letters.concat()
}

/// Whatever stands in a form, each finding has its place in the text, and each
/// note its explanation.
#[test]
fn spoilt_forms_are_told_in_order() {
  let folder = concat!(env!("CARGO_MANIFEST_DIR"), "/../../examples");
  let names = ["tally", "volume", "diameters", "delay"];
  let forms =
    names.map(|it| fs::read_to_string(format!("{folder}/{it}.bas")).unwrap());
  let mut random = Random(1);
  let (mut counts, mut codes) = (BTreeMap::new(), BTreeMap::new());
  for round in 0..ROUNDS {
    let text = match round % 2 {
      0 => spoil(&forms[random.below(forms.len())], &mut random),
      _ => {
        let piece = |_| PIECES[random.below(PIECES.len())];
        (0..40).map(piece).collect()
      }
    };
    let Checked { findings, .. } = check(&text);
    let lines: Vec<&str> = text.split_inclusive('\n').collect();
    let mut last = (0, 0);
    for it in findings {
      let place = (it.line, it.range.start);
      assert!(last <= place, "{text}");
      last = place;
      let units = lines[it.line].encode_utf16().count();
      assert!(
        it.range.start <= it.range.end && it.range.end <= units,
        "{text}"
      );
      *codes.entry(it.code.to_string()).or_insert(0) += 1;
    }
    if !is_refused(&text) {
      explained(&text, &mut counts);
    }
  }
  assert!(counts.len() == explain::CLASSES.len(), "{counts:?}");
  assert!(codes.len() >= 10, "{codes:?}");
}

/// How many forms are spoilt.
const ROUNDS: usize = 4_000;

#[test]
fn what_was_expected_is_told_in_words() {
  for (statement, wanted) in [
    (
      "GET #A$,1",
      "a number is wanted as the file number of GET, this is a text",
    ),
    ("PLAY 1", "a text is wanted as the notes of PLAY, this is a number"),
    (
      "SWAP A%,B$",
      "both sides of SWAP have to be of the same kind: the left is an integer, the right a text",
    ),
    ("A$=LEFT$(A$)", "LEFT$ takes 2 arguments, here is 1"),
    ("A$=MID$(A$,1,2,3)", "MID$ takes 2 to 3 arguments, here are 4"),
    ("A=TAB(1)", "TAB stands in PRINT alone"),
    ("A$=1", "a text is wanted as the value of A$, this is a number"),
    ("A(1)=\"X\"", "a number is wanted as the value of A, this is a text"),
    ("A=1-\"X\"", "a number is wanted on the right of -, this is a text"),
    (
      "IF A=\"X\" THEN END",
      "both sides of = have to be of the same kind: the left is a number, the right a text",
    ),
    ("NEXT I$", "the counter of NEXT is a number, this is a text"),
    ("FOR I%=1 TO 2:NEXT", "the counter of FOR is a real, this is an integer"),
    ("BOX 1,2", "BOX takes 4 to 6 arguments, here are 2"),
    ("LOAD 1", "LOAD takes an address and at least one byte"),
    ("LOAD 1,256", "a byte of LOAD is a whole number from 0 to 255"),
    (
      "INPUT FN F(1)",
      "the argument of a function in INPUT is a variable alone",
    ),
  ] {
    assert_eq!(expected(&format!("10 {statement}")), wanted, "{statement}");
  }
}

#[test]
fn functions_without_their_sign_are_told() {
  for statement in ["A=MID(A$,1)", "A$=CHR(65)", "PLAY STR(1)"] {
    let told = told(&format!("10 {statement}"));
    let is_read = |line: &String| line.ends_with("is read as an array");
    assert!(told.iter().any(is_read), "{told:?}");
  }
}

// ------------------------------------------------------------------ refusals

#[test]
fn what_is_too_deep_is_told_where_it_is() {
  let deep = format!("10 A={}1:B=\"X\"\n20 A$=1\n", "-".repeat(70));
  let told = told(&deep);
  assert_eq!(told.len(), 3, "{told:?}");
  assert!(told[0].starts_with("1:"), "{told:?}");
  assert!(told[0].ends_with("error[refusal 5]: nested deeper than 64"));
  assert!(told[1].ends_with("error[4]: kinds of value do not fit"));
  assert!(told[2].starts_with("2:"));
  assert!(check(&deep).compiled.is_none());
}

/// The branches of an IF whose condition is too deep are still compiled.
#[test]
fn what_stands_beside_too_deep_parts_is_told() {
  let deep = format!("10 IF {}1 THEN A$=1 ELSE B$=2\n", "-".repeat(70));
  let codes: Vec<Code> = check(&deep).findings.iter().map(|f| f.code).collect();
  assert_eq!(codes, [Code::Refusal(5), Code::Class(4), Code::Class(4)]);
  let nested =
    format!("10 A$=1:{}B$=2:C=3\n20 D$=3\n", "IF 1 THEN ".repeat(70));
  let codes: Vec<Code> =
    check(&nested).findings.iter().map(|f| f.code).collect();
  assert_eq!(codes, [Code::Class(4), Code::Refusal(5), Code::Class(4)]);
  // The first part of the condition is too deep, the branch just not.
  for cond in ["1+1", "-1", "A(1)", "LEN(A$)"] {
    let line = format!("10 {}IF {cond} THEN GOTO 9\n", "IF 1 THEN ".repeat(62));
    let codes: Vec<Code> =
      check(&line).findings.iter().map(|f| f.code).collect();
    assert_eq!(codes, [Code::Refusal(5), Code::Class(2)], "{cond}");
  }
}

#[test]
fn every_fseek_is_told() {
  let text = "10 FSEEK #1,2\n20 IF 1 THEN FSEEK #1,A$ ELSE FSEEK #B$,1\n";
  let codes: Vec<Code> = check(text).findings.iter().map(|f| f.code).collect();
  let (fseek, kinds) = (Code::Refusal(8), Code::Class(4));
  assert_eq!(codes, [fseek, fseek, kinds, fseek, kinds]);
  assert_eq!(
    check(text).findings[2].expected.as_deref(),
    Some("a number is wanted as the place of FSEEK, this is a text")
  );
  let Checked { findings, .. } = check("10 FSEEK #A$,B$\n");
  let roles = ["file number", "place"];
  for (finding, role) in findings[1..].iter().zip(roles) {
    let expected = finding.expected.as_deref().unwrap();
    assert!(expected.contains(role), "{expected}");
  }
  assert_eq!(findings.len(), 3);
}

#[test]
fn a_form_that_is_too_long_is_told() {
  let lines = |count: usize| "REM ABCDEFGHIJKLMNOPQRSTUVWXYZ\n".repeat(count);
  assert_eq!(check(&lines(2000)).findings, []);
  let finding = only(&lines(2200));
  assert_eq!((finding.line, finding.code), (2114, Code::Reading));
  assert_eq!(finding.message, "form longer than 65536 units");
  // Few units, many words.
  let finding = only(&"A=-----------1\n".repeat(4300));
  assert_eq!((finding.line, finding.code), (0, Code::Refusal(1)));
}

// ------------------------------------------------------------------- reading

#[test]
fn nesting_has_an_end() {
  let nested = |n: usize| format!("10 A={}1{}", "(".repeat(n), ")".repeat(n));
  assert_eq!(check(&nested(63)).findings, []);
  for form in [
    nested(2000),
    format!("10 A={}1", "-".repeat(2000)),
    format!("10 {}CLS", "IF 1 THEN ".repeat(300)),
  ] {
    assert!(check(&form).has_errors());
  }
}

#[test]
fn problems_of_reading_have_no_number() {
  let finding = only("10 FOR I=1\n");
  assert_eq!(finding.to_string(), "error: put TO here");
  assert_eq!((finding.line, finding.range.start), (0, 10));
  assert_eq!(finding.severity, Severity::Error);
}
