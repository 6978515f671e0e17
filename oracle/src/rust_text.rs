//! The project's tables held to the Rust's text, both read as text: the fields
//! of the cases of StmtKind and ExprKind and the statements' shapes
//! (crates/sheet/specs, Table, Kinds, Shapes and Tree), signatures, arities and
//! operands (crates/rules/specs, Tables and Piles), and the names of statements
//! and calls (crates/recorder/specs, StmtKind and Calls).

use crate::run;
use crate::selftest::{guarded, same};
use std::collections::BTreeSet;
use std::ops::Range;

include!(concat!(env!("OUT_DIR"), "/texts.rs"));

/// Four files of the Rust, then those of the project.
#[derive(Clone)]
struct Texts {
  stmt: String,
  expr: String,
  label: String,
  compiler: String,
  numbers: String,
  statements: String,
  calls: String,
  table: String,
  kinds: String,
  shapes: String,
  tree: String,
  rules: String,
  piles: String,
}

/// A file of the project, with blank lines behind, so that its last definition
/// ends as the others do.
macro_rules! specs {
  ($path:literal) => {
    concat!(include_str!(concat!("../../crates/", $path)), "\n\n").into()
  };
}

/// What ends a file of the project, and nothing else.
const FILE_END: &str = "\n\n\n";

impl Texts {
  fn stored() -> Self {
    Self {
      stmt: STMT_RS.into(),
      expr: EXPR_RS.into(),
      label: LABEL_RS.into(),
      compiler: COMPILER_RS.into(),
      numbers: specs!("recorder/specs/Numbers.antt"),
      statements: specs!("recorder/specs/StmtKind.antt"),
      calls: specs!("recorder/specs/Calls.antt"),
      table: specs!("sheet/specs/Table.antt"),
      kinds: specs!("sheet/specs/Kinds.antt"),
      shapes: specs!("sheet/specs/Shapes.antt"),
      tree: specs!("sheet/specs/Tree.antt"),
      rules: specs!("rules/specs/Tables.antt"),
      piles: specs!("rules/specs/Piles.antt"),
    }
  }
}

/// The test.
pub fn tables_held() -> Result<String, String> {
  let texts = Texts::stored();
  held(&texts)?;
  let changes = every_change_is_told(&texts)?;
  Ok(format!(", {changes} changes"))
}

fn held(texts: &Texts) -> Result<(), String> {
  let stmts = cases(&texts.stmt, "StmtKind")?;
  let exprs = cases(&texts.expr, "ExprKind")?;
  statements_held(texts, &stmts)?;
  emitters_held(texts)?;
  fields_held(texts, &exprs, "expr_table")?;
  let rows = fields_held(texts, &stmts, "stmt_table")?;
  words_held(texts, &stmts, &exprs)?;
  let arms = arms(&texts.compiler, &stmts)?;
  shapes_held(texts, &arms, &rows)?;
  signatures_held(texts)?;
  draw_arity_held(texts, &arms)?;
  operands_held(texts, &arms)?;
  sets_held(texts, &arms)
}

// ------------------------------------------------------------ reading

/// What stands between two marks.
fn between<'a>(
  text: &'a str,
  begin: &str,
  end: &str,
) -> Result<&'a str, String> {
  let (_, rest) = text.split_once(begin).ok_or(format!("no {begin:?}"))?;
  let (found, _) = rest.split_once(end).ok_or(format!("{begin:?} is open"))?;
  Ok(found)
}

fn is_letter(c: char) -> bool {
  c.is_alphanumeric() || c == '_'
}

/// The word that a text begins with.
fn first_word(text: &str) -> &str {
  text.split(|c| !is_letter(c)).next().unwrap()
}

/// The words behind each such mark, in order.
fn words_behind(text: &str, mark: &str) -> Vec<String> {
  text.split(mark).skip(1).map(|rest| first_word(rest).to_string()).collect()
}

fn numbers(text: &str) -> Vec<usize> {
  let words = text.split(|c| !is_letter(c));
  words.filter_map(|word| word.parse().ok()).collect()
}

/// A field of a case or of a struct: what the comment before it says, and its
/// type.
#[derive(Clone)]
struct Member {
  comment: String,
  ty: String,
}

struct Case {
  name: String,
  members: Vec<Member>,
}

/// Pieces between commas that stand in no bracket, each with the comment
/// before it.
fn pieces(text: &str) -> Vec<(String, String)> {
  let mut all = vec![];
  let (mut comment, mut piece, mut depth) = (String::new(), String::new(), 0);
  for line in text.lines().map(str::trim) {
    if let (Some(said), 0) = (line.strip_prefix("/// "), depth) {
      comment = said.to_string();
      continue;
    }
    for c in line.chars() {
      match c {
        '(' | '[' | '{' | '<' => depth += 1,
        ')' | ']' | '}' | '>' => depth -= 1,
        _ => {}
      }
      if c == ',' && depth == 0 {
        all.push((std::mem::take(&mut comment), std::mem::take(&mut piece)));
      } else {
        piece.push(c);
      }
    }
    piece.push('\n');
  }
  all.push((comment, piece));
  let all = all.into_iter().map(|(a, piece)| (a, piece.trim().to_string()));
  all.filter(|(_, piece)| !piece.is_empty()).collect()
}

fn members(text: &str) -> Vec<Member> {
  let members = pieces(text).into_iter().map(|(comment, piece)| {
    let ty = piece.split_once(": ").map_or(&piece[..], |(_, ty)| ty);
    Member { comment, ty: ty.to_string() }
  });
  members.collect()
}

/// The cases of an enum with their fields, in order.
fn cases(source: &str, name: &str) -> Result<Vec<Case>, String> {
  let body = between(source, &format!("pub enum {name} {{\n"), "\n}")?;
  let cases = pieces(body).into_iter().map(|(comment, piece)| {
    let name = first_word(&piece).to_string();
    let inner = piece[name.len()..].trim_matches([' ', '\n']);
    let inner = inner.strip_prefix(['(', '{']).unwrap_or("");
    let inner = inner.strip_suffix([')', '}']).unwrap_or(inner);
    let mut members = members(inner);
    if let [only] = &mut members[..]
      && only.comment.is_empty()
    {
      only.comment = comment;
    }
    Case { name, members }
  });
  Ok(cases.collect())
}

fn names(cases: &[Case]) -> Vec<String> {
  cases.iter().map(|case| case.name.clone()).collect()
}

/// The lines of a definition of the project.
fn definition<'a>(text: &'a str, head: &str) -> Result<&'a str, String> {
  between(text, &format!("\n{head} ="), "\n\n")
}

/// Whether a line is one of the two that name a number.
fn names_number(line: &str) -> bool {
  let is_number = |(name, number): (&str, &str)| {
    first_word(name) == name && number.trim().parse::<usize>().is_ok()
  };
  line.split_once(" = ").is_some_and(is_number)
    || line.starts_with("abbrev pub ") && line.trim_end().ends_with(" : ℕ")
}

/// The numbers that a file of the project names, in order.
fn named(text: &str) -> Result<Vec<(&str, usize)>, String> {
  let pieces = text.split("\n\n");
  let pieces = pieces.filter(|piece| piece.lines().any(names_number));
  let all = pieces.map(|piece| {
    let lines = piece.lines().filter(|it| !it.is_empty());
    let lines: Vec<_> = lines.filter(|it| !it.starts_with("--")).collect();
    let no_number = || format!("no number with its name: {piece}");
    let &[ty, number] = &lines[..] else { return Err(no_number()) };
    let (name, number) = number.split_once(" = ").ok_or_else(no_number)?;
    same(ty, &format!("abbrev pub {name} : ℕ"))?;
    Ok((name, number.parse().map_err(|_| no_number())?))
  });
  all.collect()
}

/// The number that a file of the project names so.
fn number(text: &str, name: &str) -> Result<usize, String> {
  let found = definition(text, name)?.trim().parse();
  found.map_err(|_| format!("no number: {name}"))
}

/// The rows of a list of the project, each numbered and named by its comment,
/// without their names.
fn rows(
  text: &str,
  head: &str,
  names: &[String],
) -> Result<Vec<String>, String> {
  let lines: Vec<&str> = definition(text, head)?.trim().lines().collect();
  let (last, lines) = lines.split_last().ok_or(format!("no rows: {head}"))?;
  same(last.trim(), "∷ []")?;
  same(lines.len(), names.len())?;
  let rows = lines.iter().zip(names).enumerate().map(|(at, (line, name))| {
    let no_comment = || format!("a row without a comment: {line}");
    let (row, comment) = line.split_once("--").ok_or_else(no_comment)?;
    let comment = comment.trim();
    same(numbers(first_word(comment)), vec![at])?;
    same(first_word(comment.trim_start_matches(is_letter).trim()), name)?;
    let row = row.trim();
    if at > 0 && !row.starts_with("∷ ") {
      return Err(format!("a row that is not joined: {line}"));
    }
    Ok(row.trim_start_matches("∷ ").to_string())
  });
  rows.collect()
}

/// The items of a list without its end: of `a ∷ b ∷ []`, in brackets or not.
fn items_of(list: &str) -> Result<Vec<String>, String> {
  let bare = list.strip_prefix('(').and_then(|list| list.strip_suffix(')'));
  let items = bare.unwrap_or(list).split('∷').map(|item| item.trim().into());
  let mut items: Vec<String> = items.collect();
  same(items.pop().as_deref(), Some("[]"))?;
  Ok(items)
}

// ------------------------------------------------------------ names

/// The statements that rules name, each by its case and by the case's place.
fn statements_held(texts: &Texts, stmts: &[Case]) -> Result<(), String> {
  for (name, at) in named(&texts.statements)? {
    let case = stmts.get(at).ok_or(format!("{name}: no case {at}"))?;
    let words =
      name.strip_suffix("_stmt").ok_or(format!("no _stmt: {name}"))?;
    same(words.replace('_', ""), case.name.to_lowercase())?;
  }
  Ok(())
}

/// The place of the case that a rule names.
fn statement(texts: &Texts, name: &str) -> Result<usize, String> {
  number(&texts.statements, name)
}

fn is_emitter(name: &str) -> bool {
  let begins = ["emit_", "begin_def_", "end_def_"];
  begins.iter().any(|begin| name.starts_with(begin))
}

/// Each function of CodeEmitter that makes a record is defined once, and
/// nothing else; their numbers are their places. Of classes the Rust has only
/// messages: there are as many as the oracle knows.
fn emitters_held(texts: &Texts) -> Result<(), String> {
  let emitter = between(&texts.compiler, "pub trait CodeEmitter {\n", "\n}")?;
  let mut wanted = words_behind(emitter, "\n  fn ");
  wanted.retain(|name| is_emitter(name));
  // It makes an entry of the book.
  let datum = wanted.iter().position(|name| name == "emit_datum");
  wanted.remove(datum.ok_or("no emit_datum")?);
  let mut found = words_behind(&texts.calls, "\n  abbrev pub ");
  for (at, name) in found.iter().enumerate() {
    let said = between(&texts.calls, &format!("\n  {name} "), "\n")?;
    let (_, call) =
      said.split_once(" = put ").ok_or(format!("no put: {name}"))?;
    let call = first_word(call);
    let call = call.parse().or_else(|_| number(&texts.calls, call))?;
    same(call, at + 1).map_err(|error| format!("{name}: {error}"))?;
  }
  found.sort();
  wanted.sort();
  same(found, wanted)?;
  let is_class = |name: &str| !name.ends_with("_call") && !is_severity(name);
  let mut classes = named(&texts.calls)?;
  classes.retain(|(name, _)| is_class(name));
  let last = run::CLASSES.iter().map(|(_, class)| *class as usize).max();
  let classes: Vec<usize> = classes.iter().map(|(_, class)| *class).collect();
  same(classes, (1..=last.unwrap()).collect())
}

/// "1 error or 2 warning": nothing of the Rust has these numbers.
fn is_severity(name: &str) -> bool {
  name.ends_with("_note")
}

// ------------------------------------------------------------ the form

/// "Missing parts are ... a Range option absent as name, parameter, function
/// or counter": so an optional range is a name's.
fn items(
  stmt: &str,
  Member { ty, comment }: &Member,
) -> Result<Vec<String>, String> {
  let place = comment.starts_with("lvalue");
  let item = match &ty[..] {
    "Range" => "range",
    "Label" => "label",
    "bool" => "flag",
    "ExprId" if place => "place",
    "ExprId" => "expr",
    "StmtId" => "stmt",
    "Datum" => "datum",
    "FileMode" => "mode",
    "InputSource" => "source",
    "PrintElement" => "element",
    "SysFuncKind" => "sys_func",
    "BinaryOpKind" => "binary_op",
    "UnaryOpKind" => "unary_op",
    "Option<Range>" => "optionalName",
    "Option<Label>" => "optionalLabel",
    _ => "",
  };
  if !item.is_empty() {
    return Ok(vec![item.to_string()]);
  }
  // A tuple or a struct by its parts.
  let tuple = ty.strip_prefix('(').and_then(|ty| ty.strip_suffix(')'));
  let parts = match tuple {
    Some(parts) => parts,
    None => between(stmt, &format!("pub struct {ty} {{\n"), "\n}")?,
  };
  let mut parts = members(parts);
  // "A field is its length, then its variable."
  if ty == "FieldSpec" {
    same(&parts.remove(0).ty[..], "Range")?;
  }
  let parts = parts.iter().map(|part| items(stmt, part));
  Ok(parts.collect::<Result<Vec<_>, _>>()?.concat())
}

/// A member as fields of the project's table.
fn fields(stmt: &str, member: &Member) -> Result<Vec<String>, String> {
  let ty = &member.ty;
  let list = |begin: &str, end: &str| -> Option<&str> {
    let inner = ty.strip_prefix(begin)?.strip_suffix(end)?;
    Some(inner.rsplit_once("; ").map_or(inner, |(inner, _)| inner))
  };
  let (times, inner) = if ty == "Option<Range>" {
    ("one", &ty[..])
  } else if let Some(inner) = list("Option<SmallVec<[", "]>>") {
    ("optional_list", inner)
  } else if let Some(inner) = list("SmallVec<[", "]>") {
    ("list", inner)
  } else if let Some(inner) = list("NonEmptyVec<[", "]>") {
    ("non_empty", inner)
  } else if let Some(inner) = list("Option<", ">") {
    ("optional", inner)
  } else {
    ("one", &ty[..])
  };
  let items = items(stmt, &Member { ty: inner.into(), ..member.clone() })?;
  Ok(match &items[..] {
    items if times == "one" => {
      items.iter().map(|item| format!("one {item}")).collect()
    }
    [item] => vec![format!("{times} {item}")],
    items => vec![format!("{times}₂ {}", items.join(" "))],
  })
}

/// Where document 01 has something else than the enums and their comments:
/// "After a NumberLit's range" stands its value; "DIM takes any expression";
/// "INPUT also takes UserFuncCall"; SWAP's two go to compile_lvalue.
const OTHERWISE: [(&str, &str, &str); 4] = [
  ("NumberLit", "", "one number"),
  ("Dim", "non_empty place", "non_empty expr"),
  ("Input", "non_empty place", "non_empty input_place"),
  ("Swap", "one expr", "one place"),
];

/// The rows of a table of fields, held to the cases.
fn fields_held(
  texts: &Texts,
  cases: &[Case],
  table: &str,
) -> Result<Vec<String>, String> {
  let rows = rows(&texts.table, table, &names(cases))?;
  for (case, row) in cases.iter().zip(&rows) {
    let wanted = case.members.iter().map(|it| fields(&texts.stmt, it));
    let mut wanted = wanted.collect::<Result<Vec<_>, _>>()?.concat();
    for (_, from, to) in OTHERWISE.iter().filter(|it| it.0 == case.name) {
      if from.is_empty() {
        wanted.push(String::new());
      }
      if !wanted.iter().any(|field| field == from) {
        return Err(format!("{}: no field {from:?}: {wanted:?}", case.name));
      }
      for field in wanted.iter_mut().filter(|field| *field == from) {
        *field = to.to_string();
      }
    }
    same(items_of(row)?, wanted).map_err(|e| format!("{}: {e}", case.name))?;
  }
  Ok(rows)
}

/// The words that hold a place in an enum, and the cases that may stand
/// somewhere.
fn words_held(
  texts: &Texts,
  stmts: &[Case],
  exprs: &[Case],
) -> Result<(), String> {
  let table = &texts.table;
  let places = [
    ("sys_func", "PlaceWord", &texts.expr, "SysFuncKind"),
    ("binary_op", "PlaceWord", &texts.expr, "BinaryOpKind"),
    ("unary_op", "PlaceWord", &texts.expr, "UnaryOpKind"),
    ("mode", "ModeWord", &texts.stmt, "FileMode"),
  ];
  for (item, kind, source, name) in places {
    let count = cases(source, name)?.len();
    same(definition(table, item)?, &format!(" Word {kind} {count}"))?;
  }
  // "03 label, 0 to 65,535": all numbers of its bits.
  let bits = between(&texts.label, "pub struct Label(pub u", ")")?;
  let bits: u32 = bits.parse().map_err(|_| format!("no bits: {bits}"))?;
  same(number(&texts.numbers, "label_size")?, 1 << bits)?;
  same(definition(table, "label")?, " Word LabelWord label_size")?;
  let kinds = &texts.kinds;
  same(items_of(definition(kinds, "expr_kinds")?)?, names(exprs))?;
  // Numbers stand for these; of the modes it is "0 Error, 1 Random, then from 2
  // FileMode's other cases in the order of stmt.rs".
  let spelled = [
    (&texts.stmt, "FileMode", "Input Output Append Random Binary Error"),
    (
      &texts.expr,
      "BinaryOpKind",
      "Eq Ne Gt Lt Ge Le Add Sub Mul Div Pow And Or",
    ),
    (&texts.expr, "UnaryOpKind", "Not Neg Pos"),
  ];
  for (source, name, spelled) in spelled {
    same(&names(&cases(source, name)?).join(" ")[..], spelled)?;
  }
  // PRINT's elements and "07 input source: 0 keyboard, 1 keyboard and a prompt
  // range, 2 file and an expression", of which the walks know the parts.
  let all = [
    (
      "PrintElement",
      "Expr(ExprId) Comma(Range) Semicolon(Range)",
      "element_kind k",
      " get_or (Value ∷ Comma ∷ []) k Semicolon",
    ),
    (
      "InputSource",
      "File(ExprId) Keyboard(Option<Range>)",
      "source_kind k",
      " get_or (Keyboard ∷ KeyboardWithPrompt ∷ []) k File",
    ),
  ];
  for (name, spelled, head, said) in all {
    let cases = cases(&texts.stmt, name)?;
    let spell = |case: &Case| format!("{}({})", case.name, case.members[0].ty);
    same(
      cases.iter().map(spell).collect::<Vec<_>>().join(" "),
      spelled.into(),
    )?;
    same(definition(kinds, head)?, said)?;
  }
  let lines = |head: &str| {
    let mut lines = table.lines();
    let found = lines.find_map(|line| line.strip_prefix(head));
    found.map(numbers).ok_or(format!("no {head}"))
  };
  let of = |cases: &[Case], wanted: &BTreeSet<String>| -> Vec<usize> {
    let is_wanted = |at: &usize| wanted.contains(&cases[*at].name);
    (0..cases.len()).filter(is_wanted).collect()
  };
  let lvalue = function(&texts.compiler, "compile_lvalue")?;
  let mut wanted = BTreeSet::from_iter(words_behind(lvalue, " ExprKind::"));
  same(lines("may_stand Place k =")?, of(exprs, &wanted))?;
  wanted.insert("UserFuncCall".to_string());
  same(lines("may_stand InputPlace k =")?, of(exprs, &wanted))?;
  same(lines("may_stand Expr k =")?, vec![exprs.len()])?;
  same(lines("may_stand Stmt k =")?, vec![stmts.len()])?;
  let fseek = BTreeSet::from(["Fseek".to_string()]);
  same(lines("is_fseek Stmt k =")?, of(stmts, &fseek))
}

// ------------------------------------------------------------ statements

fn function<'a>(source: &'a str, name: &str) -> Result<&'a str, String> {
  between(source, &format!("  fn {name}("), "\n  }\n")
}

/// What compile_stmt does for a case: how many operands a function of many
/// statements compiles and of which types, or the call itself.
struct Arm {
  name: String,
  has_members: bool,
  body: String,
  operands: Option<Vec<String>>,
}

fn arms(compiler: &str, stmts: &[Case]) -> Result<Vec<Arm>, String> {
  let body = function(compiler, "compile_stmt")?;
  let arms: Vec<&str> = body.split("\n      StmtKind::").skip(1).collect();
  let said: Vec<_> = arms.iter().map(|arm| first_word(arm).into()).collect();
  same(said, names(stmts))?;
  let arms = arms.into_iter().zip(stmts).map(|(arm, case)| {
    let body: String = arm.split_whitespace().collect();
    let mut operands = None;
    if let Some((before, behind)) = body.split_once("(range,&stmt.kind,") {
      let name = before.rsplit("self.").next().unwrap();
      if name.starts_with("compile_") && name != "compile_set" {
        let called = function(compiler, name)?;
        let emits = between(called, "emit_op(range, kind, ", ")")?;
        let mut types = words_behind(called, "matches(Type::");
        if types.is_empty() {
          types = words_behind(behind, "Type::");
        }
        same(numbers(emits), vec![types.len()])?;
        operands = Some(types);
      }
    }
    let has_members = !case.members.is_empty();
    Ok(Arm { name: case.name.clone(), has_members, body, operands })
  });
  arms.collect()
}

/// The cases of one shape are compiled alike; a shape of one case has its name.
fn shape(arm: &Arm) -> String {
  let has = |call: &str| arm.body.contains(call);
  if let Some(operands) = &arm.operands {
    format!("Op{}", operands.len())
  } else if has("emit_no_op(range)") {
    if arm.has_members { "Rem".into() } else { "NoOp".into() }
  } else if has("emit_op(range,&stmt.kind,0)") {
    if arm.has_members { "Run".into() } else { "Op0".into() }
  } else if has("compile_draw_stmt!(") {
    "Draw".into()
  } else if has("self.compile_set(") {
    "Set".into()
  } else {
    arm.name.clone()
  }
}

fn shapes_held(
  texts: &Texts,
  arms: &[Arm],
  rows: &[String],
) -> Result<(), String> {
  let (mut shapes, mut said) = (vec![], vec![]);
  for line in definition(&texts.tree, "shape_table")?.trim().lines() {
    let (row, comment) = line.split_once("--").unwrap_or((line, ""));
    let row = row.trim().trim_start_matches("∷ ");
    if comment.is_empty() {
      same(row, "[]")?;
      continue;
    }
    let mut words = comment.split_whitespace();
    same(numbers(words.next().unwrap_or("")), vec![said.len()])?;
    said.extend(words.map(String::from));
    shapes.extend(row.split('∷').map(|shape| shape.trim().to_string()));
  }
  same(said, arms.iter().map(|arm| arm.name.clone()).collect())?;
  same(shapes.len(), arms.len())?;
  for (found, arm) in shapes.iter().zip(arms) {
    same(found, &shape(arm))
      .map_err(|error| format!("{}: {error}", arm.name))?;
  }
  // The fields by shape are those by case. `Field` is `Fields` there.
  for (shape, row) in shapes.iter().zip(rows) {
    let shape = if shape == "Field" { "Fields" } else { shape };
    let head = format!("\nshape_fields {shape} = ");
    let fields = between(&texts.shapes, &head, "\n")?;
    same(items_of(fields), items_of(row))
      .map_err(|error| format!("{shape}: {error}"))?;
  }
  Ok(())
}

// ------------------------------------------------------------ arguments

fn signatures_held(texts: &Texts) -> Result<(), String> {
  let kinds = names(&cases(&texts.expr, "SysFuncKind")?);
  let body = function(&texts.compiler, "compile_sys_func_call")?;
  let parts: Vec<&str> =
    between(body, "match func.1\n", "\n    };")?.split("=>").collect();
  let mut wanted = vec![String::new(); kinds.len()];
  let mut alone = vec![];
  for arm in parts.windows(2) {
    let no_tuple = || format!("no signature: {}", arm[1]);
    let (before, behind) = arm[1].split_once(", &[").ok_or_else(no_tuple)?;
    let (args, behind) = behind.split_once("], Type::").ok_or_else(no_tuple)?;
    let arity = numbers(before.rsplit('(').next().unwrap());
    let args = words_behind(args, "Type::");
    // The most arguments are as many as there are types.
    same(arity.get(1), Some(&args.len()))?;
    let args: String = args.iter().map(|ty| format!("{ty} ∷ ")).collect();
    let (least, value) = (arity[0], first_word(behind));
    for name in words_behind(arm[0], "SysFuncKind::") {
      let at = kinds.iter().position(|kind| *kind == name);
      let at = at.ok_or(format!("no function {name}"))?;
      same(&wanted[at][..], "")?;
      wanted[at] = format!("signature {least} ({args}[]) {value}");
      if before.contains("add_error") {
        alone.push((name, at));
      }
    }
  }
  let rows = rows(&texts.rules, "signatures", &kinds)?;
  for ((row, wanted), name) in rows.iter().zip(&wanted).zip(&kinds) {
    let row = match row.starts_with("signature ") {
      true => row,
      false => definition(&texts.rules, row)?.trim(),
    };
    same(row, wanted).map_err(|error| format!("{name}: {error}"))?;
  }
  alone.sort_by_key(|(_, at)| *at);
  let found = ["tab", "spc"].map(|name| definition(&texts.rules, name));
  let found: Result<Vec<_>, _> = found.into_iter().collect();
  let wanted = [format!(" {}", alone[0].1), format!(" {}", alone[1].1)];
  same(found?, wanted.iter().map(|at| &at[..]).collect())?;
  same(alone.iter().map(|(name, _)| &name[..]).collect(), vec!["Tab", "Spc"])
}

fn draw_arity_held(texts: &Texts, arms: &[Arm]) -> Result<(), String> {
  let mut wanted = vec![];
  for (at, arm) in arms.iter().enumerate() {
    if let Some((_, args)) = arm.body.split_once("compile_draw_stmt!(stmt,") {
      wanted.push((at, numbers(args)));
    }
  }
  let compiled = function(&texts.compiler, "compile_stmt")?;
  let all = between(compiled, "compile_draw_stmt {", "\n    }\n")?;
  let ty = words_behind(all, "matches(Type::").join(" ");
  let drawn = format!(" pick (nat_lt i (draw_arity k).max) {ty} Error");
  same(definition(&texts.rules, "drawn k i")?, &drawn)?;
  let mut found = vec![];
  for line in definition(&texts.rules, "draw_arity k")?.trim().lines() {
    let row = line.trim().trim_start_matches('(');
    let case = match row.strip_prefix("pick (k == ") {
      Some(row) => statement(texts, first_word(row))?,
      // The last is for what is left, which its comment names.
      None => {
        let (case, _) = wanted.last().ok_or("no arity")?;
        let (_, name) = row.split_once("-- ").ok_or("no comment")?;
        same(name, &arms[*case].name)?;
        *case
      }
    };
    let (_, arity) = row.split_once("arity ").ok_or("no arity")?;
    found.push((case, numbers(arity)));
  }
  same(found, wanted)
}

fn operands_held(texts: &Texts, arms: &[Arm]) -> Result<(), String> {
  let mut wanted = BTreeSet::new();
  let mut count = vec![0; arms.len()];
  for (at, arm) in arms.iter().enumerate() {
    for (i, ty) in arm.operands.iter().flatten().enumerate() {
      count[at] += 1;
      match &ty[..] {
        "Real" => {}
        "String" => assert!(wanted.insert((at, i))),
        _ => return Err(format!("{} wants {ty}", arm.name)),
      }
    }
  }
  let text = definition(&texts.rules, "operand k i")?.trim();
  let mut found = BTreeSet::new();
  let mut picks = text.split("pick (").skip(1).peekable();
  while let Some(pick) = picks.next() {
    let end =
      if picks.peek().is_some() { ") String (" } else { ") String Real" };
    let pick = pick.trim_end_matches(')');
    let pick = pick.strip_suffix(end).ok_or(format!("not String: {pick}"))?;
    let name = words_behind(pick, "k == ").concat();
    let k = statement(texts, &name)?;
    let (i, form) = match numbers(pick)[..] {
      [] if count[k] == 1 => (0, format!("k == {name}")),
      [i] => (i, format!("both (k == {name}) (i == {i})")),
      _ => return Err(format!("no case and no operand: {pick}")),
    };
    same(pick, &form)?;
    assert!(found.insert((k, i)));
  }
  same(found, wanted)
}

/// LSET and RSET: what compile_set compiles.
fn sets_held(texts: &Texts, arms: &[Arm]) -> Result<(), String> {
  let said = definition(&texts.piles, "is_set k")?;
  let sets = words_behind(said, "k == ");
  let each: Vec<_> = sets.iter().map(|name| format!("(k == {name})")).collect();
  same(said, &format!(" either {}", each.join(" ")))?;
  let found = sets.iter().map(|name| statement(texts, name));
  let is_set = |at: &usize| shape(&arms[*at]) == "Set";
  same(
    found.collect::<Result<Vec<_>, _>>()?,
    (0..arms.len()).filter(is_set).collect(),
  )
}

// ------------------------------------------------------------ changes

/// What is read, by its first line and what ends it.
type Part =
  (fn(&mut Texts) -> &mut String, &'static str, &'static [&'static str]);

/// The project's rows, and the label, in the Rust too: each word of them counts,
/// a comment's as far as its case's name.
const ROWS: [Part; 8] = [
  (|texts| &mut texts.label, ")", &["\npub struct Label("]),
  (|texts| &mut texts.numbers, "\n\n", &["\nlabel_size ="]),
  (
    |texts| &mut texts.table,
    "\n\n",
    &[
      "\nlabel =",
      "\nsys_func =",
      "\nbinary_op =",
      "\nunary_op =",
      "\nmode =",
      "\nexpr_table =\n",
      "\nstmt_table =\n",
    ],
  ),
  (
    |texts| &mut texts.kinds,
    "\n\n",
    &["\nexpr_kinds =", "\nsource_kind k =", "\nelement_kind k ="],
  ),
  (|texts| &mut texts.shapes, "\n\n", &["\nshape_fields Rem ="]),
  (|texts| &mut texts.tree, "\n\n", &["\nshape_table =\n"]),
  (
    |texts| &mut texts.rules,
    "\n\n",
    &[
      "\nreal_of_real =",
      "\nreal_of_text =",
      "\ntext_of_real =",
      "\ntext_part =",
      "\nsignatures =\n",
      "\ntab =",
      "\nspc =",
      "\ndraw_arity k =\n",
      "\ndrawn k i =",
      "\noperand k i =",
    ],
  ),
  (|texts| &mut texts.piles, "\n\n", &["\nis_set k ="]),
];

/// The project's names, each with its number, and those of the Rust.
const NAMES: [Part; 3] = [
  (|texts| &mut texts.statements, FILE_END, &[""]),
  (|texts| &mut texts.calls, FILE_END, &[""]),
  (|texts| &mut texts.compiler, "\n}", &["pub trait CodeEmitter {\n"]),
];

/// The Rust's enums: each name of a case or a type.
const ENUMS: [Part; 2] = [
  (
    |texts| &mut texts.stmt,
    "\n}",
    &[
      "\npub enum StmtKind {\n",
      "\npub struct FieldSpec {\n",
      "\npub struct WriteElement {\n",
      "\npub enum InputSource {\n",
      "\npub enum FileMode {\n",
      "\npub enum PrintElement {\n",
    ],
  ),
  (
    |texts| &mut texts.expr,
    "\n}",
    &[
      "\npub enum ExprKind {\n",
      "\npub enum SysFuncKind {\n",
      "\npub enum BinaryOpKind {\n",
      "\npub enum UnaryOpKind {\n",
    ],
  ),
];

/// The Rust's code: the types and numbers in the lines of signatures and of
/// arities, and the types that an operand is held to.
const CODE: [Part; 2] = [
  (|texts| &mut texts.compiler, "\n    };", &["match func.1\n    {\n"]),
  (
    |texts| &mut texts.compiler,
    "\n  }\n",
    &[
      "  fn compile_stmt(",
      "  fn compile_get_put(",
      "  fn compile_fputc(",
      "  fn compile_fread_fwrite(",
      "  fn compile_fseek(",
      "  fn compile_poke(",
    ],
  ),
];

/// Whether a word of a line counts.
fn row_word(line: &str, at: usize) -> bool {
  let Some(comment) = line.find("--") else { return true };
  // A shape's row names eight cases, others one.
  let several = !line.contains('(') && line.matches('∷').count() > 2;
  let before = line[comment..].get(..at.saturating_sub(comment)).unwrap_or("");
  at < comment || several || before.split_whitespace().count() <= 2
}

fn name_word(line: &str, at: usize) -> bool {
  let (before, word) = line.split_at(at);
  let emitter = ["  ", "  abbrev pub ", "  fn "].contains(&before);
  names_number(line) && !line.split(' ').any(is_severity)
    || emitter && is_emitter(word)
    || before.ends_with(" = put ")
}

fn enum_word(line: &str, at: usize) -> bool {
  line[at..].starts_with(|c: char| c.is_ascii_uppercase())
    && !line.trim().starts_with("///")
}

fn code_word(line: &str, at: usize) -> bool {
  let counts = ["SysFuncKind::", "&[Type::", "matches(Type::"];
  let arity = line.contains("compile_draw_stmt!(stmt");
  let number = line[at..].starts_with(|c: char| c.is_ascii_digit());
  let ty = line[..at].ends_with("Type::");
  // An argument of compile_unary_stmt; deeper ones are said in messages.
  let operand = line.starts_with("        Type::") && line.ends_with(",\n");
  (counts.iter().any(|mark| line.contains(mark)) || operand) && (number || ty)
    || arity && number
}

/// Each word that counts changed, one at a time, and each row and each case's
/// line left out: all of this is told.
fn every_change_is_told(texts: &Texts) -> Result<usize, String> {
  type Counts = fn(&str, usize) -> bool;
  let all = ROWS.iter().map(|part| (part, row_word as Counts, true));
  let all = all.chain(NAMES.iter().map(|part| (part, name_word as _, true)));
  let all = all.chain(ENUMS.iter().map(|part| (part, enum_word as _, true)));
  let all = all.chain(CODE.iter().map(|part| (part, code_word as _, false)));
  let mut changes = 0;
  let mut try_it = |(of, _, _): &Part, place: Range<usize>, new: &str| {
    changes += 1;
    let mut changed = texts.clone();
    of(&mut changed).replace_range(place.clone(), new);
    match guarded(|| held(&changed)) {
      Ok(()) => Err((place, new.to_string())),
      Err(_) => Ok(()),
    }
  };
  for (part, counts, whole) in all {
    let (of, end, heads) = part;
    let text = of(&mut texts.clone()).clone();
    for head in *heads {
      let mut at = text.find(head).ok_or(*head)? + head.len();
      for line in between(&text, head, end)?.split_inclusive('\n') {
        let not_told = |(place, new): (Range<usize>, String)| {
          format!("not told: {:?} as {new:?} in {line:?}", &text[place])
        };
        let mut words = vec![];
        for (place, _) in line.match_indices(is_letter) {
          let word = first_word(&line[place..]);
          let begins = !line[..place].ends_with(is_letter);
          if begins && counts(line, place) {
            words.push((at + place..at + place + word.len(), word));
          }
        }
        for (place, word) in &words {
          let new = match word.parse::<usize>() {
            Ok(number) => (number + 1).to_string(),
            Err(_) if *word == "Real" => "String".to_string(),
            Err(_) => format!("{word}x"),
          };
          try_it(part, place.clone(), &new).map_err(not_told)?;
        }
        if whole && (!words.is_empty() || line.contains("/// lvalue")) {
          try_it(part, at..at + line.len(), "").map_err(not_told)?;
        }
        at += line.len();
      }
    }
  }
  Ok(changes)
}
