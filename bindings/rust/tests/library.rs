//! The wrapper over the library: document 01's example, the encoder, the
//! examples of the repository against their stored listings, the refusals.

use hollupsa::names;
use hollupsa::tree::*;
use hollupsa::{Answer, EntryKind, Refusal, basic, compile, compile_into};
use std::fs;

/// Document 01's sheet of `10 GOTO 10`.
const SHEET: [u32; 10] = [
  0x0f000001, 0x1000000a, 0x01000002, 0x0300000a, 0x04000001, 0x20000018,
  0x0100300a, 0x05000001, 0x0100800a, 0x0300000a,
];

fn units(text: &str) -> Vec<u16> {
  text.encode_utf16().collect()
}

fn range(start: usize, end: usize) -> Range {
  Range { start, end }
}

/// The tree of a text that is read whole.
fn read(text: &str) -> Program {
  let form = basic::read(text);
  assert!(form.is_read(), "{text}: {:?}", form.problems);
  form.program
}

#[test]
fn encodes_the_worked_example() {
  let label = Some((range(8, 10), 10));
  let stmt =
    Stmt { range: range(3, 10), kind: StmtKind::GoTo { keyword: true, label } };
  let line =
    Line { len: 10, label: Some((range(0, 2), 10)), stmts: vec![stmt] };
  let program = Program { lines: vec![line] };
  assert_eq!(program.encode(), SHEET);
  assert_eq!(read("10 GOTO 10"), program);
}

/// Document 02's name and three more, and a note of another class.
#[test]
fn a_note_says_how_many_units_are_left_out() {
  let text = "READ DIA ONE$,A B,A $,A  B C%:WRITE \"A\" 3";
  let compiled = compile(&read(text).encode(), &units(text)).unwrap();
  let said: Vec<_> = compiled.notes().map(|it| (it.class, it.lost)).collect();
  assert_eq!(said, [(10, 4), (10, 2), (10, 1), (10, 5), (11, 0)]);
}

/// Each statement once, with missing parts, in the sheet's order.
fn each_statement() -> Vec<StmtKind> {
  use StmtKind::*;
  let r = range(0, 0);
  let e = || Expr { range: r, kind: ExprKind::Error };
  let es = || vec![e()];
  vec![
    Auto(r),
    Beep,
    Box(es()),
    Call(e()),
    Circle(es()),
    Clear,
    Close(e()),
    Cls,
    Cont,
    Copy(r),
    Data(vec![Datum { range: r, quoted: false }]),
    Def { name: None, param: None, body: e() },
    Del(r),
    Dim(es()),
    Draw(es()),
    Edit(r),
    Ellipse(es()),
    End,
    Field {
      filenum: e(),
      fields: vec![hollupsa::tree::Field { len: e(), var: e() }],
    },
    Files(r),
    Flash,
    For { var: None, start: e(), end: e(), step: Some(e()) },
    Get { filenum: e(), record: e() },
    GoSub(None),
    GoTo { keyword: false, label: None },
    Graph,
    If { cond: e(), conseq: vec![], alt: Some(vec![]) },
    InKey,
    Input { source: InputSource::File(e()), vars: es() },
    Inverse,
    Kill(r),
    Let { var: e(), value: e() },
    Line(es()),
    List(r),
    Load(es()),
    Locate { row: Some(e()), column: None },
    LSet { var: e(), value: e() },
    New(r),
    Next(vec![None]),
    Normal,
    NoTrace,
    On { cond: e(), labels: vec![(r, None), (r, Some(1))], is_sub: true },
    Open {
      filename: e(),
      mode: FileMode::Error,
      filenum: e(),
      len: Some((r, e())),
    },
    Paint(es()),
    Play(e()),
    Poke { addr: e(), value: e() },
    Pop,
    Print(vec![
      PrintElement::Expr(e()),
      PrintElement::Comma(r),
      PrintElement::Semicolon(r),
    ]),
    Put { filenum: e(), record: e() },
    Read(es()),
    Rem(r),
    Rename(r),
    Restore(None),
    Return,
    RSet { var: e(), value: e() },
    Run(r),
    Save(r),
    Stop(r),
    Swap { left: e(), right: e() },
    System,
    Text,
    Trace,
    Wend,
    While(e()),
    Write {
      filenum: Some(e()),
      data: vec![WriteElement { datum: e(), comma: true }],
    },
    Sleep(e()),
    Fputc { filenum: e(), value: e() },
    Fread { filenum: e(), addr: e(), size: e() },
    Fwrite { filenum: e(), addr: e(), size: e() },
    Fseek { filenum: e(), offset: e() },
    DebugPrint(e()),
    NoOp,
  ]
}

#[test]
fn the_form_takes_what_is_encoded() {
  let all = each_statement();
  assert_eq!(all.len(), 72);
  for (case, kind) in all.into_iter().enumerate() {
    let is_fseek = matches!(kind, StmtKind::Fseek { .. });
    let stmts = vec![Stmt { range: range(0, 0), kind }];
    let line = Line { len: 0, label: None, stmts };
    let sheet = Program { lines: vec![line] }.encode();
    assert_eq!(sheet[4], 0x20000000 + case as u32);
    match compile(&sheet, &[]) {
      Ok(_) => assert!(!is_fseek),
      Err(refusal) => assert!(is_fseek && refusal.number() == 8, "{case}"),
    }
  }
}

#[test]
fn compiles_the_worked_example() {
  let compiled = compile(&SHEET, &units("10 GOTO 10")).unwrap();
  assert_eq!(compiled.listing(), "0 0 20 0 0 0\n1 0 2 17 0 0\n");
  assert_eq!(compiled.entries().len(), 0);
  let first = compiled.records().next().unwrap();
  assert_eq!(first.range, range(3, 10));
}

#[test]
fn the_examples_have_their_listings() {
  let folder = concat!(env!("CARGO_MANIFEST_DIR"), "/../../examples");
  for name in ["tally", "volume", "diameters", "delay"] {
    let file =
      |end: &str| fs::read_to_string(format!("{folder}/{name}.{end}")).unwrap();
    let text = file("bas");
    let sheet = read(&text).encode();
    let compiled = compile(&sheet, &units(&text)).unwrap();
    assert_eq!(compiled.listing(), file("listing"), "{name}");
    let shown =
      names::listing(&names::line_lengths(&sheet), &units(&text), &compiled);
    assert_eq!(shown, file("names"), "{name}");
  }
}

#[test]
fn entries_carry_names_data_and_bytes() {
  let text = "10 A%=1\n20 DATA 5,\"X\"\n";
  let sheet = read(text).encode();
  let compiled = compile(&sheet, &units(text)).unwrap();
  let kinds: Vec<EntryKind> = compiled.entries().map(|e| e.kind).collect();
  assert_eq!(
    kinds,
    [
      EntryKind::Name { sigil: b'%' as u16 },
      EntryKind::Datum { quoted: false },
      EntryKind::Datum { quoted: true },
    ]
  );
}

#[test]
fn tells_each_refusal() {
  let text = units("10 GOTO 10");
  let with = |at: usize, word: u32| {
    let mut sheet = SHEET;
    sheet[at] = word;
    compile(&sheet, &text).unwrap_err()
  };
  let long = vec![0x02000000; 65537];
  assert_eq!(compile(&long, &[]), Err(Refusal::TooLong));
  assert_eq!(compile(&SHEET, &[0xd800; 10]), Err(Refusal::Surrogate));
  assert_eq!(with(5, 0x20000048), Refusal::Form { place: 5 });
  assert_eq!(compile(&SHEET, &text[1..]), Err(Refusal::Lines { place: 1 }));
  assert_eq!(with(6, 0x0100300b), Refusal::Range { place: 6 });
  let mut deep = format!("10 A={}1\n", "-".repeat(63));
  let sheet = read(&deep).encode();
  assert!(compile(&sheet, &units(&deep)).is_err_and(|r| r.number() == 5));
  deep.remove(5);
  let sheet = read(&deep).encode();
  assert!(compile(&sheet, &units(&deep)).is_ok());
  let expr = || Expr { range: range(0, 0), kind: ExprKind::Error };
  let kind = StmtKind::Fseek { filenum: expr(), offset: expr() };
  let stmt = Stmt { range: range(0, 0), kind };
  let line = Line { len: 0, label: None, stmts: vec![stmt] };
  let sheet = Program { lines: vec![line] }.encode();
  assert_eq!(compile(&sheet, &[]), Err(Refusal::Fseek { place: 4 }));
}

#[test]
fn short_buffers_are_told() {
  let text = "10 A=\"\"";
  let sheet = read(text).encode();
  let text = units(text);
  let tell = |list: usize, notes: usize, book: usize, work: usize| {
    let mut lent = [list, notes, book, work].map(|n| vec![7; n]);
    let [list, notes, book, work] = &mut lent;
    let answer = compile_into(&sheet, &text, list, notes, book, work);
    if answer.refusal != 0 {
      assert!(lent.iter().flatten().all(|word| *word == 0));
    }
    answer.refusal
  };
  let words = sheet.len();
  // A name, a text and an assignment of the wrong kind; End.
  assert_eq!(tell(20, 4, 4, words), 0);
  assert_eq!(tell(20, 4, 4, words - 1), 3);
  assert_eq!(tell(19, 3, 3, words), 9);
  assert_eq!(tell(20, 3, 3, words), 10);
  assert_eq!(tell(20, 4, 3, words), 11);
}

#[test]
fn literals_are_exact() {
  let of = |x: f64| Number::from(x);
  assert_eq!(of(0.0), Number::ZERO);
  assert_eq!(of(1.0), Number { e: 129, m: 1 << 31 });
  assert_eq!(of(12.5), Number { e: 132, m: 25 << 27 });
  assert_eq!(of(4294967295.0), Number { e: 160, m: u32::MAX });
  assert_eq!(of(4294967295.9), Number { e: 161, m: 1 << 31 });
  assert_eq!(of(1e39), Number::TOO_LARGE);
  assert_eq!(of(1e-60), Number::ZERO);
}

/// A name or a string in parentheses is what stands in them.
#[test]
fn parentheses_do_not_widen_names_and_strings() {
  for (form, bare) in
    [("10 B=(A)", "10 B= A "), ("10 PRINT (\"X\")", "10 PRINT  \"X\" ")]
  {
    let records = |form: &str| -> Vec<_> {
      let sheet = read(form).encode();
      let compiled = compile(&sheet, &units(form)).unwrap();
      compiled.records().map(|record| (record.call, record.args)).collect()
    };
    assert_eq!(records(form), records(bare), "{form}");
  }
}

#[test]
fn a_range_that_does_not_fit_is_refused() {
  let stmt = Stmt { range: range(4097, 4100), kind: StmtKind::Cls };
  let line = Line { len: 10, label: None, stmts: vec![stmt] };
  let sheet = Program { lines: vec![line] }.encode();
  let refused = compile(&sheet, &units("10 CLS    ")).unwrap_err();
  assert_eq!(refused, Refusal::Range { place: 5 });
}

#[test]
fn an_answer_says_why_it_was_refused() {
  let answer = compile_into(
    &SHEET,
    &units("10 GOTO 10"),
    &mut [1; 10],
    &mut [],
    &mut [],
    &mut [1; 9],
  );
  assert_eq!(answer.refused(), Some(Refusal::WorkTooShort));
  let accepted = Answer { refusal: 0, ..answer };
  assert_eq!(accepted.refused(), None);
}

/// Each number has its refusal, also one that document 01 has not.
#[test]
fn any_answer_has_its_refusal() {
  for number in (1..=13).chain([u32::MAX]) {
    let [place, records, notes, entries] = [7, 0, 0, 0];
    let answer = Answer { refusal: number, place, records, notes, entries };
    let refusal = answer.refused().expect("a refusal");
    assert_eq!(refusal.number(), number);
    let is_unknown = refusal == Refusal::Unknown { number };
    assert_eq!(is_unknown, number > 11);
    let has_place = (4..=8).contains(&number);
    assert_eq!(refusal.place(), has_place.then_some(7));
    assert!(!is_unknown || refusal.to_string().contains(&number.to_string()));
  }
}

/// A text that is not the sheet's still gets a listing.
#[test]
fn a_listing_of_another_text_ends() {
  let text = units("10 CLS");
  let sheet = read("10 CLS").encode();
  let compiled = compile(&sheet, &text).unwrap();
  assert!(
    names::listing(&names::line_lengths(&sheet), &[], &compiled)
      .contains("CLS")
  );
}

/// Lines that make no record are shown, and a RESTORE names its datum.
#[test]
fn a_listing_shows_every_line() {
  let form = "10 DATA SPRUCE,FIR\n20 RESTORE 10\n30 DATA 1\n40 REM\n";
  let text = units(form);
  let sheet = read(form).encode();
  let listing = names::listing(
    &names::line_lengths(&sheet),
    &text,
    &compile(&sheet, &text).unwrap(),
  );
  for line in form.lines() {
    assert!(listing.lines().any(|shown| shown == line), "{line}");
  }
  assert!(listing.contains("restore to datum 0 (SPRUCE)"), "{listing}");
}
