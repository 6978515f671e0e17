//! One input's answer: the form, then the unchanged compiler over the decoded
//! tree with document 01's recorder, then the lengths of the lent buffers.

use crate::ast::Program;
use crate::compiler;
use crate::diagnostic::Diagnostic;
use crate::form::{self, Refusal};
use crate::points::{self, Changes};
use crate::recorder::Recorder;
use crate::sheet;
use crate::standins::{self, Utf16Str};

/// Sheet, text, and the lengths of list, notes, book and work in words.
#[derive(Clone, PartialEq, Eq, Debug, Default)]
pub struct Input {
  pub words: Vec<u32>,
  pub units: Vec<u16>,
  pub list: usize,
  pub notes: usize,
  pub book: usize,
  pub work: usize,
}

#[derive(Clone, PartialEq, Eq, Debug)]
pub struct Note {
  pub class: u32,
  pub line: usize,
  pub start: usize,
  pub end: usize,
  /// 1 error, 2 warning.
  pub severity: u32,
  /// How many units of a name are left out; the Rust does not say it.
  pub lost: u32,
}

impl Note {
  pub fn words(&self) -> [u32; 4] {
    let head = (self.class << 24) + self.line as u32;
    let range = crate::ast::Range::new(self.start, self.end);
    [head, sheet::range_word(&range), self.severity, self.lost]
  }
}

/// What an accepted sheet gives.
#[derive(Clone)]
pub struct Compiled {
  pub recorder: Recorder,
  pub notes: Vec<Note>,
  /// How often the difference that document 01 declares was met.
  pub one_quotes: usize,
  pub changes: Changes,
}

impl Compiled {
  /// How many records, notes and entries.
  pub fn counts(&self) -> [usize; 3] {
    let Recorder { records, entries, .. } = &self.recorder;
    [records.len(), self.notes.len(), entries.len()]
  }
}

pub enum Answer {
  Refused(Refusal),
  Accepted(Compiled),
}

pub fn answer(input: &Input) -> Answer {
  if let Some(refusal) = form::refusal(&input.words, &input.units, input.work) {
    return Answer::Refused(refusal);
  }
  let compiled = compile(&input.words, &input.units);
  let records = compiled.recorder.records.len();
  let entries = compiled.recorder.entries.len();
  let refused = |number| Answer::Refused(Refusal { number, place: 0 });
  if input.list < 5 * records || records > 65535 {
    refused(9)
  } else if input.notes < 4 * compiled.notes.len() {
    refused(10)
  } else if input.book < 4 * entries {
    refused(11)
  } else {
    Answer::Accepted(compiled)
  }
}

/// Compiles a sheet that the form takes: what the Rust says, with document
/// 02's points.
pub fn compile(words: &[u32], units: &[u16]) -> Compiled {
  let mut made = compile_as_rust(words, units);
  points::apply(&mut made, words, units);
  made
}

/// What the Rust says, by document 01's recorder.
pub fn compile_as_rust(words: &[u32], units: &[u16]) -> Compiled {
  let mut prog = sheet::decode(words).expect("the form took the sheet");
  let text = Utf16Str::from_units(units);
  standins::begin(text);
  let mut recorder = Recorder::new();
  compiler::compile_prog(text, &mut prog, &mut recorder);
  let notes = notes(&prog);
  let one_quotes = standins::one_quote_data();
  Compiled { recorder, notes, one_quotes, changes: Changes::default() }
}

/// The notes in order of making; the Rust keeps them by line.
pub fn notes(prog: &Program) -> Vec<Note> {
  let mut all: Vec<(usize, Note)> = vec![];
  for (line, parsed) in prog.lines.iter().enumerate() {
    for diagnostic in &parsed.diagnostics {
      let class = class(diagnostic);
      let severity = if diagnostic.is_error { 1 } else { 2 };
      let (start, end) = (diagnostic.range.start, diagnostic.range.end);
      let note = Note { class, line, start, end, severity, lost: 0 };
      all.push((diagnostic.made, note));
    }
  }
  all.sort_by_key(|(made, _)| *made);
  all.into_iter().map(|(_, note)| note).collect()
}

/// Pieces of the Rust's messages and their class; the first that fits counts.
pub const CLASSES: [(&str, u32); 27] = [
  ("行号必须递增", 1),
  ("RESTORE 语句将会把 DATA 指针重置到程序开头", 3),
  ("行号不存在", 2),
  ("行号 0 不存在", 2),
  ("WHILE 语句没有对应的 WEND 语句", 13),
  ("字符串太长，长度超出 255", 8),
  ("数值过大，超出实数的表示范围", 9),
  ("该变量包含空格", 10),
  ("这个表达式的值会被 WRITE 语句忽略", 11),
  ("该语句已废弃", 12),
  ("LEN 参数只能用于以 RANDOM 模式打开的文件", 12),
  ("LOAD 语句的数据必须是 0~255 的十进制整数字面量", 12),
  ("函数只能作为 PRINT 语句的参数出现", 12),
  ("INPUT 语句只允许从键盘输入自定义函数", 12),
  ("INPUT 语句中的自定义函数的参数只允许是变量", 12),
  ("LOAD 语句至少需要一个字节常量", 6),
  ("语句至少要有", 6),
  ("函数至少要有", 6),
  ("多余的参数", 7),
  ("函数最多接受", 7),
  ("变量类型错误", 5),
  ("参数类型错误", 5),
  ("赋值语句类型错误", 4),
  ("字段类型错误", 4),
  ("函数体类型错误", 4),
  ("SWAP 语句的两个变量/数组的类型必须相同", 4),
  ("LOAD 语句的地址必须是", 4),
];

/// Classes 4 that begin so.
const KINDS: [&str; 3] = ["表达式类型错误", "类型不匹配", "运算数类型不匹配"];

fn class(diagnostic: &Diagnostic) -> u32 {
  let message = &diagnostic.message;
  if KINDS.iter().any(|begin| message.starts_with(begin)) {
    return 4;
  }
  if let Some((_, class)) =
    CLASSES.iter().find(|(piece, _)| message.contains(piece))
  {
    return *class;
  }
  // "X 函数必须有 n 个参数" is said of too few and of too many.
  let wanted: Option<usize> = message
    .split_once("函数必须有 ")
    .and_then(|(_, rest)| rest.strip_suffix(" 个参数"))
    .and_then(|n| n.parse().ok());
  match wanted {
    Some(wanted) if diagnostic.arity < wanted => 6,
    Some(wanted) if diagnostic.arity > wanted => 7,
    _ => panic!("a message of no class: {message}"),
  }
}
