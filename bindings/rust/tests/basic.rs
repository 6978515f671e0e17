//! The reader of BASIC: what is read alike, what is told and where, and the
//! examples of docs/BASIC.md.

use hollupsa::basic::{Form, Severity, read};
use hollupsa::spelling::STATEMENTS;
use hollupsa::tree::*;
use std::collections::HashSet;

/// The form of a text without any error.
fn good(text: &str) -> Form {
  let form = read(text);
  assert!(form.is_read(), "{text}: {:?}", form.problems);
  form
}

/// A tree with each range as the text it cites, without blanks and in upper
/// case: what two spellings of one form have in common.
fn told(text: &str) -> Vec<String> {
  let form = good(text);
  let mut from = 0;
  let mut lines = vec![];
  for line in &form.program.lines {
    let units = &form.units[from..from + line.len];
    from += line.len;
    let shown = format!("{:?} {:?}", line.label, line.stmts);
    lines.push(with_texts(&shown, units));
  }
  lines
}

fn with_texts(shown: &str, units: &[u16]) -> String {
  let mut out = String::new();
  let mut pieces = shown.split("Range { start: ");
  out += pieces.next().unwrap();
  for piece in pieces {
    let (numbers, rest) = piece.split_once(" }").unwrap();
    let (start, end) = numbers.split_once(", end: ").unwrap();
    let range = start.parse().unwrap()..end.parse().unwrap();
    let text = String::from_utf16_lossy(&units[range]);
    out += &format!("{:?}{rest}", text.replace([' ', '\t'], "").to_uppercase());
  }
  out
}

#[test]
fn spellings_of_one_form_are_one_tree() {
  for (text, same) in [
    ("10FORI=1TO10STEP2", "10 FOR I = 1 TO 10 STEP 2"),
    ("10 GOTO100", "10 GOTO 100"),
    ("10 DEF FNQ(X)=X", "10 DEF FN Q ( X ) = X"),
    ("10 DEFFNQ(X)=X", "10 DEF FN Q(X)=X"),
    ("10 PRINTLEN(A$)", "10 PRINT LEN (A$)"),
    ("10 print len(a$)", "10 PRINT LEN(A$)"),
    ("10 IFA=BTHEN100", "10 IF A=B THEN 100"),
    ("10 IF A=1THENPRINTBELSEPRINTC", "10 IF A=1 THEN PRINT B ELSE PRINT C"),
    ("10\tLET\tA\t=\t1", "10 LET A=1"),
    ("10 A=1", "10A=1"),
    ("  10 A=1", "10 A=1"),
    ("10 PRINT A (1)", "10 PRINT A(1)"),
    ("10 PRINTAANDB", "10 PRINT A AND B"),
    ("10 PRINT NOTA", "10 PRINT NOT A"),
    ("10 A=B< =C", "10 A=B<=C"),
    ("10 A=B<   >C", "10 A=B<>C"),
    ("10 FORI=MINTOMAX", "10 FOR I=MIN TO MAX"),
    ("10 FORI=1TONPOSTEP2", "10 FOR I=1 TO NPO STEP 2"),
    ("10 FIELD#1,10ASC$", "10 FIELD #1,10 AS C$"),
    ("10 FIELD#1,NASC$,MASD$", "10 FIELD #1,N AS C$,M AS D$"),
    ("10 ONAGOTO10,20", "10 ON A GOTO 10 , 20"),
    ("10 OPEN\"A\"FORINPUTAS#1", "10 OPEN \"A\" FOR INPUT AS # 1"),
    ("10 INPUTA,B", "10 INPUT A , B"),
    ("10 FIELD #1,LASA$", "10 FIELD #1,L AS A$"),
    ("10 DATA 1 , 2", "10 DATA 1,2"),
    ("10 A=1 2 . 5 E + 1", "10 A=12.5E+1"),
    ("10 A=1:", "10 A=1"),
    ("10 A=1:::", "10 A=1 : : :"),
  ] {
    assert_eq!(told(text), told(same), "{text}");
  }
  let with_let = told("10 LET A=1:LET B$=\"X\"");
  let without = told("10 A=1:B$=\"X\"");
  assert_eq!(
    with_let[0].replace("\"LETA", "\"A").replace("\"LETB", "\"B"),
    without[0]
  );
}

#[test]
fn line_ends_and_marks_change_nothing() {
  let lines = told("10 A=1\n\n20 PRINT \"X\"\n30 REM Y\n");
  for other in [
    "10 A=1\r\n\r\n20 PRINT \"X\"\r\n30 REM Y\r\n",
    "\u{feff}10 A=1\n\n20 PRINT \"X\"\n30 REM Y\n",
    "10 A=1\n \t \n20 PRINT \"X\n30 REM Y",
  ] {
    assert_eq!(told(other).len(), 4, "{other:?}");
    for (line, same) in told(other).iter().zip(&lines) {
      assert_eq!(
        line
          .replace("\"\\\"X\"", "\"\\\"X\\\"\"")
          .replace("PRINT\\\"X\"", "PRINT\\\"X\\\"\""),
        *same,
        "{other:?}"
      );
    }
  }
  assert_eq!(read("").program.lines.len(), 0);
  assert_eq!(read("\n").program.lines.len(), 1);
}

/// The three spellings of an IF with a jump put what follows into the branch.
#[test]
fn a_jump_of_an_if_does_not_end_its_branch() {
  for text in [
    "10 IF A THEN 100:PRINT 2",
    "10 IF A GOTO 100:PRINT 2",
    "10 IF A THEN GOTO 100:PRINT 2",
  ] {
    let form = good(text);
    let [Stmt { kind: StmtKind::If { conseq, alt, .. }, .. }] =
      form.program.lines[0].stmts.as_slice()
    else {
      panic!("{text}");
    };
    assert!(alt.is_none());
    assert!(matches!(conseq[0].kind, StmtKind::GoTo { .. }), "{text}");
    assert!(matches!(conseq[1].kind, StmtKind::Print(_)), "{text}");
  }
}

fn statements(text: &str) -> Vec<StmtKind> {
  let stmts = good(text).program.lines.remove(0).stmts;
  stmts.into_iter().map(|stmt| stmt.kind).collect()
}

#[test]
fn colons_without_a_statement_do_nothing() {
  let no_ops = |text: &str| {
    let kinds = statements(text);
    kinds.iter().map(|kind| *kind == StmtKind::NoOp).collect::<Vec<_>>()
  };
  assert_eq!(no_ops("10 CLS:CLS"), [false, false]);
  assert_eq!(no_ops("10 CLS::CLS"), [false, true, false]);
  assert_eq!(no_ops("10 :"), [true]);
  assert_eq!(no_ops("10 :CLS:"), [true, false]);
  let branches = |text: &str| match statements(text).remove(0) {
    StmtKind::If { conseq, alt, .. } => (conseq.len(), alt.unwrap().len()),
    _ => panic!("{text}"),
  };
  assert_eq!(branches("10 IF A THEN CLS:ELSE BEEP"), (1, 1));
  assert_eq!(branches("10 IF A THEN:ELSE BEEP:"), (1, 1));
  assert_eq!(branches("10 IF A THEN ELSE"), (0, 0));
}

#[test]
fn names_have_blanks_and_reserved_words_end_them() {
  let name = |text: &str| {
    let form = good(text);
    let StmtKind::Let { var, .. } = &form.program.lines[0].stmts[0].kind else {
      panic!("{text}");
    };
    String::from_utf16_lossy(&form.units[var.range.start..var.range.end])
  };
  for (text, wanted) in [
    ("DIA ONE$=\"X\"", "DIA ONE$"),
    ("A B=1", "A B"),
    ("A $=\"X\"", "A $"),
    ("A  B C%=1", "A  B C%"),
    ("A =1", "A"),
    ("A1 2=1", "A1 2"),
    ("CONE=1", "CONE"),
    ("DISTANCE=1", "DISTANCE"),
    ("LEFT=1", "LEFT"),
    ("STR%=1", "STR%"),
  ] {
    assert_eq!(name(text), wanted, "{text}");
  }
}

#[test]
fn operators_bind_as_the_table_says() {
  for (text, same) in [
    ("10 A=-B^2", "10 A=(-B)^2"),
    ("10 A=NOT B=C", "10 A=(NOT B)=C"),
    ("10 A=B^C^D", "10 A=(B^C)^D"),
    ("10 A=B*C^D", "10 A=B*(C^D)"),
    ("10 A=B+C*D", "10 A=B+(C*D)"),
    ("10 A=B-C-D", "10 A=(B-C)-D"),
    ("10 A=B/C*D", "10 A=(B/C)*D"),
    ("10 A=B<C+D", "10 A=B<(C+D)"),
    ("10 A=B<C=D", "10 A=(B<C)=D"),
    ("10 A=B=C AND D", "10 A=(B=C) AND D"),
    ("10 A=B OR C AND D", "10 A=B OR (C AND D)"),
    ("10 A=NOT B AND C", "10 A=(NOT B) AND C"),
    ("10 A=B^-C", "10 A=B^(-C)"),
    ("10 A=--B", "10 A=-(-B)"),
  ] {
    // Parentheses widen a range; so only the operators are compared.
    let operators = |text: &str| {
      let shown = format!("{:?}", statements(text));
      let mut out = String::new();
      let words = shown.split(|c: char| !c.is_alphabetic());
      for word in words.filter(|word| word.len() > 1 && *word != "Range") {
        out += word;
        out.push(' ');
      }
      out
    };
    assert_eq!(operators(text), operators(same), "{text}");
  }
}

/// All that is told of a text: line, column, severity and message.
fn problems(text: &str) -> Vec<String> {
  let shown = read(text).problems.into_iter().map(|problem| {
    let letter = if problem.severity == Severity::Error { 'E' } else { 'W' };
    let column = problem.range.start + 1;
    format!("{letter} {}:{column} {}", problem.line + 1, problem.message)
  });
  shown.collect()
}

#[test]
fn errors_are_told_at_their_places() {
  for (text, wanted) in [
    ("10 PRNIT \"A\"", "E 1:4 PRNIT is no statement"),
    ("10 RETRUN", "E 1:4 RETRUN is no statement"),
    ("10 X", "E 1:5 put = here"),
    ("10 LET", "E 1:7 put a variable here"),
    ("10 IF A PRINT 1", "E 1:9 put THEN or GOTO here"),
    ("10 IF A+) THEN 20", "E 1:9 put a value here"),
    ("10 GOTO X", "E 1:9 put a line's label here"),
    ("10 GOTO 12345", "E 1:9 label above 9,999"),
    ("12345 CLS", "E 1:1 label above 9,999"),
    ("10 A=", "E 1:6 put a value here"),
    ("10 A=(1+2", "E 1:10 put ) here"),
    ("10 PRINT LEN A$", "E 1:14 put ( here"),
    ("10 TOTAL=5", "E 1:4 no statement begins with TO"),
    ("10 BASE=3", "E 1:5 put = here"),
    ("10 FOR I=1,10", "E 1:11 put TO here"),
    ("10 FOR 5=1 TO 2", "E 1:8 put a counter's name here"),
    ("10 IF A=>B THEN 20", "E 1:8 put >= here"),
    ("10 IF A = < B THEN 20", "E 1:9 put <= here"),
    ("10 INPUT \"N\",A", "E 1:13 put ; here"),
    (
      "10 OPEN \"A\" FOR READ AS #1",
      "E 1:17 put INPUT, OUTPUT, APPEND, RANDOM or BINARY here",
    ),
    ("10 PRINT “A”", "E 1:10 “ stands outside a text"),
    ("10 PRINT A，B", "E 1:11 ， stands outside a text"),
    ("10 A=1\u{1}", "E 1:7 control letter 1 outside a text"),
    ("10 PRINT \"\u{1f332}\"", "E 1:11 letter outside the first 65,536"),
    ("10 CLS\r20 CLS\n", "E 1:7 carriage return inside a line"),
    ("10 DIM 5", "E 1:8 put a variable here"),
    ("10 ELSE 20", "E 1:4 ELSE without IF"),
    ("10 DATA \"A\"B", "E 1:12 put a colon or the line's end here"),
    ("10 A==5", "E 1:6 put a value here"),
    ("10 READ A,,B", "E 1:11 put a variable here"),
    ("10 PRINT #1,A", "E 1:10 put a value, a comma or a semicolon here"),
    ("10 FN F(X)=2", "E 1:4 no statement begins with FN"),
    ("10 POKE 1", "E 1:10 put , here"),
    ("10 A=1.2.3", "E 1:9 put an operator here"),
    ("10 A=1E", "E 1:7 put an operator here"),
    ("10 A=.", "E 1:6 put a number's digits here"),
    ("10 ON A 10,20", "E 1:11 put GOTO or GOSUB here"),
    ("10 LOCATE", "E 1:10 put a row, or a comma and a column, here"),
    ("10 WRITE", "E 1:9 put a value here"),
    ("10 NEXT ,", "E 1:9 put a counter's name here"),
    ("10 CLS 5", "E 1:8 put a colon or the line's end here"),
    ("10 A=B PRINT C", "E 1:8 put a colon or the line's end here"),
    ("10 5", "E 1:4 put a statement here"),
    ("10 DEF F(X)=1", "E 1:8 put FN here"),
    ("10 DEF FN F()=1", "E 1:13 put a parameter's name here"),
    ("10 FIELD #1,5 A$", "E 1:15 put AS here"),
    ("10 STAND=1", "E 1:6 put = here"),
    ("10 RUN ELSE 10", "E 1:8 ELSE without IF"),
    ("10 PRINT A\u{feff}", "E 1:11 byte order mark inside the text"),
    ("10 EXIT", "E 1:8 put = here"),
  ] {
    let told = problems(text);
    let first = told.iter().find(|line| line.starts_with('E'));
    assert_eq!(first.map(String::as_str), Some(wanted), "{text}: {told:?}");
  }
}

/// A text whose lines end with carriage returns alone is told so once.
#[test]
fn carriage_returns_are_told_once() {
  let told = "E 1:7 carriage return inside a line";
  assert_eq!(problems(&"10 CLS\r".repeat(9000)), [told]);
  assert_eq!(problems("10 CLS\r20 A=\r\n30 CLS\n"), [told]);
}

#[test]
fn what_might_be_meant_otherwise_is_warned_of() {
  for (text, wanted) in [
    ("10 PRINT SCORE", "W 1:10 SCORE is read as SC and the reserved word OR"),
    ("10 PRINT ALEN(B$)", "W 1:10 ALEN is read as A and the reserved word LEN"),
    ("10 PRINT CHR(65)", "W 1:10 CHR is read as an array"),
    (
      "10 IF A THEN STOP ELSE CLS",
      "W 1:14 STOP is a remark to the line's end, as REM is",
    ),
    ("10 NEW=NEW+1", "W 1:4 NEW is read as the statement NEW"),
    ("10 LIST(3)=5", "W 1:4 LIST is read as the statement LIST"),
    ("10 DATA1=5", "W 1:4 DATA1 is read as the statement DATA"),
    ("10 CALLS(I+(2))=5", "W 1:4 CALLS is read as the statement CALL"),
    ("10 RUN$=A$", "W 1:4 RUN is read as the statement RUN"),
    ("10 PRINT NOTES", "W 1:10 NOTES is read as NOT and what follows"),
    ("10 A=+-B^2", "W 1:7 the sign is taken before ^: read as (-B) ^ .."),
    ("10 LOCATE 5 10", "W 1:11 blank inside a number: read as 510"),
    (
      "10 OPEN A$ FOR RANDOM AS #FLEN=32",
      "W 1:27 the number of the file is a comparison",
    ),
    ("10 PRINT USING", "W 1:10 USING is read as a variable"),
    (
      "10 A=HEIGHTANDX",
      "W 1:6 HEIGHTANDX is read as HEIGHT and the reserved word AND",
    ),
    ("10 PRINTER=5", "W 1:4 PRINTER is read as the statement PRINT"),
    ("10 NEWTREES(1)=5", "W 1:4 NEWTREES is read as the statement NEW"),
    ("10 LETTER=5", "W 1:4 LETTER is read as the statement LET"),
    ("10 IF A THEN DATA 1 ELSE 2", "W 1:19 ELSE is part of the datum"),
    ("10 REMAINDER=5", "W 1:4 REMAINDER is read as the statement REM"),
    ("10 STOP:CLS", "W 1:4 STOP is a remark to the line's end, as REM is"),
    (
      "10 PRINT \"A",
      "W 1:10 this text has no closing quote: it goes to the line's end",
    ),
    ("10 A=-B^2", "W 1:6 the sign is taken before ^: read as (-B) ^ .."),
    ("10 A=NOT B=C", "W 1:6 NOT is taken before =: read as (NOT B) = .."),
    (
      "10 A=C AND NOT B<D",
      "W 1:12 NOT is taken before <: read as (NOT B) < ..",
    ),
  ] {
    assert_eq!(problems(text), [wanted], "{text}");
    assert!(read(text).is_read());
  }
  for text in [
    "10 FORI=1TO10",
    "10 LETA=1:LET AB=1",
    "10 IF A THEN DATA 1:ELSE DATA 2",
    "10 IFA=1THENB=2",
    "10 A=-B*C:D=-(B^2):E=(-B)^2",
    "10 A=NOT B AND C:D=NOT(B=C)",
    "10 REM A:B",
    "10 REM ===== TALLY =====",
    "10 REM=====",
    "10 DATA A=5",
    "10 RUN 100",
    "10 STOP",
    "10 PRINTA",
    "10 A=B OR C",
  ] {
    assert_eq!(problems(text), [""; 0], "{text}");
  }
}

/// What is said beside an error.
#[test]
fn hints_say_what_may_be_meant() {
  for (text, wanted) in [
    ("10 GO TO 10", "did you mean GOTO?"),
    ("10 GO SUB 10", "did you mean GOSUB?"),
    ("10 FRO I=1 TO 5", "did you mean FOR?"),
    ("10 FN F(X)=1", "did you mean DEF FN?"),
    ("10 FNUM=1", "no name begins with the reserved word FN"),
    ("10 PRINT LENGTH", "no name begins with the reserved word LEN"),
    ("10 ENDIF", "ENDIF is read as the statement END"),
    ("10 FORM=5", "FORM is read as the statement FOR"),
    ("10 IFS=1", "IFS is read as the statement IF"),
    ("10 POPS(1)=5", "POPS is read as the statement POP"),
    ("10 STAND=1", "no name holds the reserved word AND"),
    ("10 ' X", "REM begins a remark"),
    ("10 PRINT A 'X", "REM begins a remark"),
    ("10 PRINT A，B", "write , in its place"),
  ] {
    let form = read(text);
    let error = form.problems.iter().find(|p| p.severity == Severity::Error);
    let hint = error.and_then(|error| error.hint.clone()).unwrap_or_default();
    assert!(hint.contains(wanted), "{text}: {hint:?}");
  }
}

/// An ELSE whose IF was not read to its THEN is not told, too.
#[test]
fn one_cause_is_told_once() {
  for text in [
    "10 IF A=1 TEHN PRINT 2:PRINT 3 ELSE PRINT 4",
    "10 IF A=1 TEHN 10:PRINT 1:ELSE 10",
    "10 IF A=1:PRINT 2 ELSE PRINT 3",
  ] {
    assert_eq!(problems(text).len(), 1, "{text}: {:?}", problems(text));
  }
}

/// One run tells all errors of a form.
#[test]
fn reading_goes_on_behind_an_error() {
  let told = problems(
    "10 PRNT 1:A=:CLS 5:IF B+) THEN GOTO X ELSE LET\n20 CLS\n30 FOR =1 TO\n",
  );
  assert_eq!(
    told,
    [
      "E 1:4 PRNT is no statement",
      "E 1:13 put a value here",
      "E 1:18 put a colon or the line's end here",
      "E 1:25 put a value here",
      "E 1:37 put a line's label here",
      "E 1:47 put a variable here",
      "E 3:8 put a counter's name here",
      "E 3:13 put a value here",
    ]
  );
}

/// What no sheet can carry is replaced, so that the rest can be compiled.
#[test]
fn a_form_with_errors_still_has_a_sheet() {
  let long = format!("10 PRINT \"{}\"\n20 CLS\n", "A".repeat(5000));
  let form = read(&long);
  assert_eq!(problems(&long), ["E 1:1 line longer than 4095 units"]);
  assert_eq!(form.units, "10\n20 CLS\n".encode_utf16().collect::<Vec<_>>());
  let lens: Vec<usize> = form.program.lines.iter().map(|l| l.len).collect();
  assert_eq!(lens, [3, 7]);
  let wide = read("10 PRINT \"\u{1f332}A\"\n");
  assert!(wide.units.iter().all(|unit| !(0xd800..0xe000).contains(unit)));
  assert_eq!(wide.units.len(), 15);
}

#[test]
fn nesting_is_bounded() {
  for n in [50, 99, 100, 101, 5000, 150_000] {
    for (before, inner, after) in [
      ("10 A=", "(", ")"),
      ("10 A=", "-", ""),
      ("10 A=1", "+1", ""),
      ("10 A=", "A(", ")"),
      ("10 A=", "FN A(", ")"),
      ("10 PRINT ", "NOT ", ""),
      ("10 ", "IF A THEN ", ""),
      ("10 A=1", "^1", ""),
    ] {
      let text = format!("{before}{}1{}\n", inner.repeat(n), after.repeat(n));
      let form = read(&text);
      let deep = form.problems.iter().any(|p| p.message.contains("too many"));
      let most = match inner {
        "+1" | "^1" => 63,
        "IF A THEN " => 100,
        _ => 99,
      };
      assert_eq!(deep, n > most, "{before}{inner} {n}");
    }
  }
}

/// Every example of docs/BASIC.md is read without an error, and they have every
/// statement.
#[test]
fn the_examples_of_the_page_are_read() {
  let page = include_str!("../../../docs/BASIC.md");
  let mut seen = HashSet::new();
  for text in page.split('`').skip(1).step_by(2) {
    if text.starts_with("10 ") {
      seen.extend(statements(text).iter().map(StmtKind::case));
    }
  }
  for (case, word) in STATEMENTS.iter().enumerate() {
    assert!(seen.contains(&case) || *word == "NO-OP", "{word}");
  }
}

/// The word that is meant is told where the first letter is right, or swapped.
#[test]
fn a_near_word_begins_alike() {
  for (text, wanted) in [
    ("10 PRNIT 1", Some("PRINT")),
    ("10 RPINT 1", Some("PRINT")),
    ("10 OGTO 10", Some("GOTO")),
    ("10 XRINT 1", None),
    ("10 HOTO 10", None),
    ("10 XNPUT A", None),
  ] {
    let form = read(text);
    let hints: Vec<_> = form.problems.iter().flat_map(|it| &it.hint).collect();
    let meant = hints.iter().find_map(|it| it.strip_prefix("did you mean "));
    let meant = meant.and_then(|it| it.strip_suffix('?'));
    assert_eq!(meant, wanted, "{text}: {hints:?}");
  }
}

/// ELSE in a remark or a datum of a branch is warned of where it is a word.
#[test]
fn else_inside_letters_is_no_word() {
  for statement in ["LIST", "DATA"] {
    for (rest, warnings) in
      [("N ELSE", 1), ("ELSE", 1), ("NELSE", 0), ("FALSEELSE", 0)]
    {
      let form = good(&format!("10 IF A THEN {statement} {rest}"));
      assert_eq!(form.problems.len(), warnings, "{statement} {rest}");
    }
  }
}
