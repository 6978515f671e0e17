//! Document 01's worked example and its 'Pairs to run' as fixed inputs, each
//! with the listing and book that it wants; and the fixed replay list.

use crate::ast::*;
use crate::cases;
use crate::generate::{self, Sort};
use crate::maker::*;
use crate::run::Input;
use crate::sheet::word;
use crate::standins::{SmallVec, Value};

pub struct Pair {
  pub name: String,
  pub input: Input,
  /// The listing, whole.
  pub listing: String,
  /// Kind, number, start, length, extra of each book entry; None if it isn't
  /// what the pair is about.
  pub book: Option<Vec<[u32; 5]>>,
}

/// Buffers that suffice.
fn lent(mut input: Input) -> Input {
  let words = input.words.len();
  input.list = 7 * words + 16;
  input.notes = 8 * words + 16;
  input.book = 4 * words + 16;
  input.work = words;
  input
}

fn line(make: impl FnOnce(&mut LineMaker) -> Vec<StmtId>) -> MadeLine {
  let mut maker = LineMaker::new();
  let stmts = make(&mut maker);
  maker.finish(None, stmts)
}

fn labelled(
  label: u16,
  make: impl FnOnce(&mut LineMaker) -> Vec<StmtId>,
) -> MadeLine {
  let mut maker = LineMaker::new();
  let range = maker.put(&label.to_string());
  maker.put(" ");
  let stmts = make(&mut maker);
  maker.finish(Some((range, Label(label))), stmts)
}

/// A line of one statement.
fn single(make: impl FnOnce(&mut LineMaker) -> StmtKind) -> MadeLine {
  line(|m| {
    let kind = make(m);
    let range = m.since(0);
    vec![m.stmt(kind, range)]
  })
}

fn binary(m: &mut LineMaker, text_first: bool) -> ExprId {
  let start = m.at();
  let lhs = if text_first { m.string("\"A\"") } else { m.missing() };
  let op = (m.put("+"), BinaryOpKind::Add);
  let rhs = if text_first { m.missing() } else { m.string("\"A\"") };
  let range = m.since(start);
  m.expr(ExprKind::Binary { lhs, op, rhs }, range)
}

/// FOR I=start TO end [STEP 1]:NEXT; no start is a missing part.
fn delay(start: Option<u64>, end: (&str, Value), step: bool) -> Input {
  input_of(vec![line(|m| {
    m.put("FOR ");
    let var = Some(m.put("I"));
    m.put("=");
    let start = match start {
      Some(n) => m.int(n),
      None => m.missing(),
    };
    m.put(" TO ");
    let end = m.number(end.0, end.1);
    let step = step.then(|| {
      m.put(" STEP ");
      m.int(1)
    });
    let range = m.since(0);
    let first = m.stmt(StmtKind::For { var, start, end, step }, range);
    m.put(":");
    let range = m.put("NEXT");
    let second = m.stmt(StmtKind::Next { vars: SmallVec(vec![]) }, range);
    vec![first, second]
  })])
}

/// CALL of `nested` expressions in each other: depths 2 to nested + 1.
fn nested_expr(nested: usize) -> Input {
  input_of(vec![single(|m| {
    m.put("CALL ");
    let ops: Vec<Range> = (1..nested).map(|_| m.put("-")).collect();
    let mut arg = m.int(1);
    for op in ops.into_iter().rev() {
      let range = m.since(op.start);
      let kind = ExprKind::Unary { op: (op, UnaryOpKind::Neg), arg };
      arg = m.expr(kind, range);
    }
    StmtKind::Call(arg)
  })])
}

/// IFs in each other around `inner`, their conditions missing.
fn nested_if(ifs: usize) -> Input {
  input_of(vec![line(|m| {
    let range = m.put("END");
    let mut inner = m.stmt(StmtKind::End, range.clone());
    for _ in 0..ifs {
      let cond = m.missing();
      let conseq = SmallVec(vec![inner]);
      let kind = StmtKind::If { cond, conseq, alt: None };
      inner = m.stmt(kind, range.clone());
    }
    vec![inner]
  })])
}

fn load(text: &str) -> Input {
  input_of(vec![single(|m| {
    m.put("LOAD ");
    let addr = m.int(1);
    m.put(",");
    let digits = text.replace([' ', '+'], "");
    let byte = m.number(text, value(digits.parse().unwrap(), 0));
    StmtKind::Load(NonEmptyVec::new(vec![addr, byte]).unwrap())
  })])
}

const END: &str = "0 0 2 17 0 0\n";

/// The worked example, its words and units as document 01 has them.
pub fn worked_example() -> Pair {
  let words = vec![
    0x0F000001, 0x1000000A, 0x01000002, 0x0300000A, 0x04000001, 0x20000018,
    0x0100300A, 0x05000001, 0x0100800A, 0x0300000A,
  ];
  let units = "10 GOTO 10".encode_utf16().collect();
  Pair {
    name: "worked example".into(),
    input: lent(Input { words, units, ..Input::default() }),
    listing: "0 0 20 0 0 0\n1 0 2 17 0 0\n".into(),
    book: Some(vec![]),
  }
}

pub fn pairs() -> Vec<Pair> {
  let mut all = vec![worked_example()];
  let mut add = |name: &str, input: Input, listing: &str, book| {
    let input = lent(input);
    let (name, listing) = (name.to_string(), listing.to_string());
    all.push(Pair { name, input, listing, book });
  };

  // Lengths 255 and 256: none, class 8.
  for length in [255usize, 256] {
    let inside = "A".repeat(length);
    let note = |end: usize| {
      if length > 255 { format!("note 8 0 5 {end}\n") } else { String::new() }
    };

    let input = input_of(vec![single(|m| {
      m.put("PLAY ");
      StmtKind::Play(m.string(&format!("\"{inside}\"")))
    })]);
    let listing = format!(
      "0 0 4 6 {length} 0\n1 0 2 44 1 0\n2 0 2 17 0 0\n{}",
      note(5 + length + 2)
    );
    add(&format!("string of {length}"), input, &listing, Some(vec![]));

    // Without a last quote.
    let input = input_of(vec![single(|m| {
      m.put("PLAY ");
      StmtKind::Play(m.string(&format!("\"{inside}")))
    })]);
    let listing = format!(
      "0 0 4 6 {length} 0\n1 0 2 44 1 0\n2 0 2 17 0 0\n{}",
      note(5 + length + 1)
    );
    add(&format!("open string of {length}"), input, &listing, Some(vec![]));

    let input = input_of(vec![single(|m| {
      m.put("INPU ");
      let prompt = m.put(&format!("\"{inside}\""));
      let vars = NonEmptyVec::new(vec![m.ident("X")]).unwrap();
      StmtKind::Input { source: InputSource::Keyboard(Some(prompt)), vars }
    })]);
    let listing = format!(
      "0 0 7 0 0 0\n1 0 4 6 {length} 0\n2 0 32 1 1 0\n3 0 2 17 0 0\n{}",
      note(5 + length + 2)
    );
    let name = [50, 0, length as u32 + 7, 1, 0];
    add(&format!("prompt of {length}"), input, &listing, Some(vec![name]));

    for quoted in [true, false] {
      let text = if quoted { format!("\"{inside}\"") } else { inside.clone() };
      let end = 5 + text.len();
      let input = input_of(vec![single(|m| {
        m.put("DATA ");
        let datum = Datum { range: m.put(&text), is_quoted: quoted };
        StmtKind::Data(NonEmptyVec::new(vec![datum]).unwrap())
      })]);
      let listing = format!("{END}{}", note(end));
      let start = 5 + quoted as u32;
      let datum = [51, 0, start, length as u32, quoted as u32];
      let name = format!("datum of {length}, quoted {quoted}");
      add(&name, input, &listing, Some(vec![datum]));
    }
  }

  // Labels 0; 10, 10; 10, 5, 7: none; one note; one note.
  let lines = |labels: &[u16]| {
    input_of(labels.iter().map(|&l| labelled(l, |_| vec![])).collect())
  };
  add("label 0", lines(&[0]), END, Some(vec![]));
  let listing = "0 1 2 17 0 0\nnote 1 1 0 2\n";
  add("labels 10, 10", lines(&[10, 10]), listing, Some(vec![]));
  let listing = "0 2 2 17 0 0\nnote 1 1 0 1\n";
  add("labels 10, 5, 7", lines(&[10, 5, 7]), listing, Some(vec![]));

  // Missing part + text: call 14, kind Error; text + missing part: 15, text.
  // An Error fits CALL's number and PLAY's text alike, a text PLAY's only.
  for (text_first, call) in [(false, 14), (true, 15)] {
    for (statement, case) in [("CALL ", 3), ("PLAY ", 44)] {
      let input = input_of(vec![single(|m| {
        m.put(statement);
        let arg = binary(m, text_first);
        if case == 3 { StmtKind::Call(arg) } else { StmtKind::Play(arg) }
      })]);
      let start = if text_first { 6 } else { 7 };
      let note = if text_first && case == 3 { "note 4 0 5 9\n" } else { "" };
      let listing = format!(
        "0 0 4 {start} 1 0\n1 0 {call} 6 0 0\n2 0 2 {case} 1 0\n3 0 2 17 0 0\n{note}"
      );
      let order = if text_first { "text + missing" } else { "missing + text" };
      add(&format!("{statement}{order}"), input, &listing, Some(vec![]));
    }
  }

  // FPUTC takes a number, then a text: of one kind only an Error fits both.
  let input = input_of(vec![single(|m| {
    m.put("FPUTC #");
    let filenum = binary(m, false);
    m.put(",");
    let value = binary(m, false);
    StmtKind::Fputc { filenum, value }
  })]);
  let listing = "0 0 4 9 1 0\n1 0 14 6 0 0\n2 0 4 14 1 0\n3 0 14 6 0 0\n4 0 2 66 2 0\n5 0 2 17 0 0\n";
  add("FPUTC missing + text", input, listing, Some(vec![]));

  // LOAD "+5", "0 07", "256": 5, 7, class 12.
  let bytes = "0 0 3 129 2147483648 0\n1 0 35 0 1 0\n2 0 2 17 0 0\n";
  add("LOAD +5", load("+5"), bytes, Some(vec![[52, 0, 7, 2, 5]]));
  add("LOAD 0 07", load("0 07"), bytes, Some(vec![[52, 0, 7, 4, 7]]));
  let listing = "0 0 3 129 2147483648 0\n1 0 2 17 0 0\nnote 12 0 7 10\n";
  add("LOAD 256", load("256"), listing, Some(vec![]));

  // Quoted datum of one quote: the Rust panics, here empty.
  let input = input_of(vec![single(|m| {
    m.put("DATA ");
    let datum = Datum { range: m.put("\""), is_quoted: true };
    StmtKind::Data(NonEmptyVec::new(vec![datum]).unwrap())
  })]);
  add("datum of one quote", input, END, Some(vec![[51, 0, 6, 0, 1]]));

  // Delay ends 12, 12.5: 12, 13. And what document 02 says of others: half a
  // step goes up, less is none.
  let twelve = ("12", value(12, 0));
  let name = || Some(vec![[50, 0, 4, 1, 0]]);
  for (end, e, m) in [
    (twelve, 132, 12u32 << 28),
    (("12.5", value(25, 1)), 132, 13 << 28),
    (("12.25", value(49, 2)), 132, 12 << 28),
    ((".25", value(1, 2)), 0, 0),
    ((".5", value(1, 1)), 129, 1 << 31),
    (("2147483647.5", value(u32::MAX.into(), 1)), 160, 1 << 31),
  ] {
    let listing = format!(
      "0 0 1 0 0 0\n1 0 3 {e} {m} 0\n2 0 2 65 1 0\n3 0 1 0 0 0\n4 0 2 17 0 0\n"
    );
    let input = delay(Some(0), end, false);
    add(&format!("delay to {}", end.0), input, &listing, name());
  }

  // FOR at address 1, 2: left, converted; with step 2, 3.
  let listing =
    "0 0 3 132 3221225472 0\n1 0 23 0 0 0\n2 0 24 0 0 0\n3 0 2 17 0 0\n";
  add("FOR at 1", delay(None, twelve, false), listing, name());
  let listing = "0 0 1 0 0 0\n1 0 3 132 3221225472 0\n2 0 2 65 1 0\n3 0 1 0 0 0\n4 0 2 17 0 0\n";
  add("FOR at 2", delay(Some(1), twelve, false), listing, name());
  let listing = "0 0 3 132 3221225472 0\n1 0 3 129 2147483648 0\n2 0 23 0 1 0\n3 0 24 0 0 0\n4 0 2 17 0 0\n";
  add("FOR STEP at 2", delay(None, twelve, true), listing, name());
  let listing = "0 0 1 0 0 0\n1 0 3 132 3221225472 0\n2 0 1 0 0 0\n3 0 2 65 1 0\n4 0 1 0 0 0\n5 0 2 17 0 0\n";
  add("FOR STEP at 3", delay(Some(1), twelve, true), listing, name());

  // Document 02's name, of which 4 units are left out, and three more: 2, 1, 5.
  let input = input_of(vec![single(|m| {
    m.put("READ");
    let vars = [" DIA ONE$", ",A B", ",A $", ",A  B C%"].map(|part| {
      let (before, name) = part.split_at(1);
      m.put(before);
      m.ident(name)
    });
    StmtKind::Read(NonEmptyVec::new(vars.to_vec()).unwrap())
  })]);
  let listing = "0 0 7 0 0 0\n1 0 30 0 0 0\n2 0 7 1 0 0\n3 0 30 0 0 0\n4 0 7 2 0 0\n5 0 30 0 0 0\n6 0 7 3 0 0\n7 0 30 0 0 0\n8 0 2 17 0 0\nnote 10 0 5 13\nnote 10 0 14 17\nnote 10 0 18 21\nnote 10 0 22 29\n";
  let book = [
    [50, 0, 5, 3, 36],
    [50, 1, 14, 1, 0],
    [50, 2, 18, 1, 36],
    [50, 3, 22, 1, 37],
  ];
  add("names with units left out", input, listing, Some(book.to_vec()));

  // Depth 64, 65: taken, 5.
  let mut listing = "0 0 3 129 2147483648 0\n".to_string();
  for at in 1..63 {
    listing += &format!("{at} 0 13 1 0 0\n");
  }
  listing += "63 0 2 3 1 0\n64 0 2 17 0 0\n";
  add("depth 64", nested_expr(63), &listing, Some(vec![]));
  add("depth 65", nested_expr(64), "refused 5\n", None);
  let mut listing = String::new();
  for at in 0..63 {
    listing += &format!("{at} 0 19 64 0 0\n");
  }
  listing += "63 0 2 17 0 0\n64 0 2 17 0 0\n";
  add("depth 64 by IF", nested_if(63), &listing, Some(vec![]));
  add("depth 65 by IF", nested_if(64), "refused 5\n", None);

  all
}

/// One line: PRINT of k INKEY$ (4k records) and so many no-ops. With End these
/// are 4k + 1 + no_ops records.
fn many_records(k: u32, no_ops: u32) -> Input {
  let mut words = vec![
    word(0x0f, 1),
    word(0x10, 0),
    word(0x02, 0),
    word(0x04, 1 + no_ops),
    word(0x20, 47),
    word(0x01, 0),
    word(0x04, k),
  ];
  for _ in 0..k {
    words.extend([word(0x08, 0), word(0x21, 8), word(0x01, 0)]);
  }
  for _ in 0..no_ops {
    words.extend([word(0x20, 71), word(0x01, 0)]);
  }
  Input { words, ..Input::default() }
}

/// One line: NEXT of the ranges.
fn many_names(text: &str, ranges: &[(u32, u32)]) -> Input {
  let units: Vec<u16> = text.encode_utf16().collect();
  let mut words = vec![
    word(0x0f, 1),
    word(0x10, units.len() as u32),
    word(0x02, 0),
    word(0x04, 1),
    word(0x20, 38),
    word(0x01, 0),
    word(0x04, ranges.len() as u32),
  ];
  words
    .extend(ranges.iter().map(|(start, end)| word(0x01, start * 4096 + end)));
  Input { words, units, ..Input::default() }
}

/// Sheets within the listing program's 2,048 words and units that make the
/// most records, notes and entries known, with these three numbers.
pub fn fullest() -> Vec<(Input, [usize; 3])> {
  let records = many_records(680, 0);
  let notes = many_names("A B$", &[(0, 4); 2041]);
  // A text with so many different pieces that are names.
  let text: String = (0..120u32)
    .map(|i| char::from(b'A' + (i * i % 26) as u8 * 7 % 26))
    .collect();
  let mut ranges = vec![];
  let mut seen = std::collections::BTreeSet::new();
  'all: for start in 0..text.len() {
    for end in start + 1..=text.len() {
      let piece = &text[start..end];
      let letter = piece.starts_with(|c: char| c.is_ascii_alphabetic());
      if letter && seen.insert(piece) {
        ranges.push((start as u32, end as u32));
        if ranges.len() == 2041 {
          break 'all;
        }
      }
    }
  }
  let entries = many_names(&text, &ranges);
  vec![
    (lent(records), [2721, 0, 0]),
    (lent(notes), [2042, 4082, 1]),
    (lent(entries), [2042, 0, 2041]),
  ]
}

/// Sheets at the limits of refusals 1 and 9. They are large, so the replay
/// list has them last.
fn large() -> Vec<Input> {
  let mut all = vec![];
  let empty = vec![word(0x0f, 0)];
  // 65,537 units; with a surrogate too; 65,536 units are only too many for
  // no line.
  for (count, unit) in [(65537, 65), (65537, 0xd800), (65536, 65)] {
    let input = Input {
      words: empty.clone(),
      units: vec![unit; count],
      ..Input::default()
    };
    all.push(lent(input));
  }
  // 65,537 words; 65,536 words with a left-over one.
  for count in [65537, 65536] {
    let mut words = empty.clone();
    words.resize(count, word(0x02, 0));
    all.push(lent(Input { words, ..Input::default() }));
  }
  // 65,535 records and 65,536.
  for no_ops in [2, 3] {
    let mut input = lent(many_records(16383, no_ops));
    input.list = 5 * 65536;
    all.push(input);
  }
  all
}

/// The replay list: the pairs, the cases worked out by hand, each statement by
/// itself, generated inputs of fixed seeds, and the large ones.
pub fn replay_list() -> Vec<Input> {
  let mut all: Vec<Input> =
    pairs().into_iter().map(|pair| pair.input).collect();
  all.extend(cases::readings().into_iter().map(|reading| reading.input));
  all.extend(fullest().into_iter().map(|(input, _)| input));
  all.extend(cases::form_cases().into_iter().map(|case| case.input));
  for round in 0..10 {
    all.extend(generate::one_of_each(round));
  }
  all.extend(generate::expression_sheets(400));
  let parts = [
    (101, 600, Sort::Valid, true),
    (102, 500, Sort::Valid, false),
    (103, 700, Sort::Damaged, true),
    (104, 900, Sort::Damaged, false),
  ];
  for (seed, count, sort, small) in parts {
    for index in 0..count {
      all.push(generate::generate(seed, index, sort, small));
    }
  }
  all.extend(large());
  all
}
