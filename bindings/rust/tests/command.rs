//! The command `plotform` from outside: what it prints, writes and ends with.

use std::fs;
use std::io::Write;
use std::path::PathBuf;
use std::process::{Command, Output, Stdio};

/// A directory of a test's own, gone when the test ends.
struct Folder(PathBuf);

impl Folder {
  fn new(test: &str) -> Self {
    let path = std::env::temp_dir()
      .join(format!("plotform-{test}-{}", std::process::id()));
    fs::create_dir_all(&path).unwrap();
    Self(path)
  }

  fn write(&self, name: &str, bytes: impl AsRef<[u8]>) {
    fs::write(self.0.join(name), bytes).unwrap();
  }

  fn read(&self, name: &str) -> Vec<u8> {
    fs::read(self.0.join(name)).unwrap()
  }

  fn command(&self, line: &str) -> Command {
    let mut command = Command::new(env!("CARGO_BIN_EXE_plotform"));
    command.args(line.split_whitespace()).current_dir(&self.0);
    command
  }

  fn run(&self, line: &str) -> Ran {
    ran(self.command(line).output().unwrap())
  }

  fn run_with(&self, line: &str, input: &[u8]) -> Ran {
    let mut command = self.command(line);
    let pipes = command.stdin(Stdio::piped()).stdout(Stdio::piped());
    let mut child = pipes.stderr(Stdio::piped()).spawn().unwrap();
    child.stdin.take().unwrap().write_all(input).unwrap();
    ran(child.wait_with_output().unwrap())
  }
}

impl Drop for Folder {
  fn drop(&mut self) {
    let _ = fs::remove_dir_all(&self.0);
  }
}

struct Ran {
  status: i32,
  out: Vec<u8>,
  err: String,
}

impl Ran {
  fn text(&self) -> String {
    String::from_utf8(self.out.clone()).unwrap()
  }
}

fn ran(output: Output) -> Ran {
  Ran {
    status: output.status.code().unwrap(),
    out: output.stdout,
    err: String::from_utf8(output.stderr).unwrap(),
  }
}

const GOOD: &str = "10 PRINT \"FIR\"\n20 GOTO 10\n";
const WARNED: &str = "10 RESTORE 10\n";
const WRONG: &str = "10 CLS\n20 A$=1:GOTO 30\n";
const UNREAD: &str = "10 PRIMT 1\n";

// --------------------------------------------------------------------- check

#[test]
fn check_tells_errors_with_carets_and_counts() {
  let folder = Folder::new("carets");
  folder.write("a.bas", "10 PRINT \"松\";X:GOTO 30\n");
  let ran = folder.run("check a.bas");
  assert_eq!(
    ran.text(),
    "a.bas:1:21: error[2]: no line has this label
  label 10
  | 10 PRINT \"松\";X:GOTO 30
  |                      ^^
  hint: line 10 is the last
1 error, no warnings\n"
  );
  assert_eq!((ran.status, ran.err.as_str()), (1, ""));
}

#[test]
fn the_status_says_what_was_found() {
  let folder = Folder::new("status");
  folder.write("good.bas", GOOD);
  folder.write("warned.bas", WARNED);
  folder.write("wrong.bas", WRONG);
  folder.write("unread.bas", UNREAD);
  for (line, status, last) in [
    ("check good.bas", 0, "no errors, no warnings"),
    ("check warned.bas", 0, "no errors, 1 warning"),
    ("check wrong.bas", 1, "2 errors, no warnings"),
    ("check unread.bas", 1, "1 error, no warnings"),
    ("check good.bas wrong.bas", 1, "2 errors, no warnings in 2 files"),
    (
      "check wrong.bas none.bas",
      2,
      "2 errors, no warnings in 1 file, 1 file not read",
    ),
    ("check none.bas", 2, "1 file not read"),
  ] {
    let ran = folder.run(line);
    assert_eq!(ran.status, status, "{line}");
    assert_eq!(ran.text().lines().last(), Some(last), "{line}");
  }
}

#[test]
fn standard_input_is_read() {
  let folder = Folder::new("input");
  let ran = folder.run_with("check -", WRONG.as_bytes());
  assert_eq!(ran.status, 1);
  assert!(ran.text().starts_with("-:2:4: error[4]"), "{}", ran.text());
  assert_eq!(folder.run_with("check -- -", GOOD.as_bytes()).status, 0);
  assert_eq!(folder.run("check - -").status, 2);
}

#[test]
fn controls_do_not_reach_the_terminal() {
  let folder = Folder::new("controls");
  folder.write("a.bas", "10 PRINT \"\u{1b}[31m\t\u{7f}\u{9b}\":GOTO 7\n");
  let text = folder.run("check a.bas").text();
  assert!(text.contains("error[2]"));
  assert!(text.chars().all(|c| c == '\n' || !c.is_control()), "{text}");
  folder.write("b.bas", "10 PRINT \"\u{1b}[31m\"\n");
  let text = folder.run("names b.bas").text();
  assert!(text.chars().all(|c| c == '\n' || !c.is_control()), "{text}");
}

/// A form whose errors are its last one's are not: the status is the worst.
#[test]
fn the_status_of_a_listing_is_that_of_the_worst_form() {
  let folder = Folder::new("worst");
  folder.write("good.bas", GOOD);
  folder.write("warned.bas", WARNED);
  folder.write("wrong.bas", WRONG);
  for command in ["list", "names"] {
    for (files, status) in
      [("warned.bas", 0), ("wrong.bas good.bas", 1), ("none.bas wrong.bas", 2)]
    {
      let line = format!("{command} {files}");
      assert_eq!(folder.run(&line).status, status, "{line}");
    }
    assert!(folder.run(&format!("{command} warned.bas")).out.len() > 20);
  }
}

/// A mark at the text's begin counts neither as a letter nor as a column.
#[test]
fn a_mark_at_the_begin_is_no_letter() {
  let folder = Folder::new("mark");
  folder.write("a.bas", "\u{feff}10 GOTO 7\n");
  let text = folder.run("check a.bas").text();
  assert!(text.starts_with("a.bas:1:9: error[2]"), "{text}");
  assert!(text.contains("  | 10 GOTO 7\n  |         ^\n"), "{text}");
}

// ---------------------------------------------------------------------- JSON

/// Walks a JSON text to its end, and gives what is behind it; panics where it
/// is none.
fn json(text: &str) -> &str {
  match text.as_bytes()[0] {
    b'{' => json_items(&text[1..], '}', |rest| {
      let rest = json_string(rest).strip_prefix(':').unwrap();
      json(rest)
    }),
    b'[' => json_items(&text[1..], ']', json),
    b'"' => json_string(text),
    _ => {
      let end = text.find([',', '}', ']']).unwrap();
      let word = &text[..end];
      assert!(word == "null" || word.parse::<u32>().is_ok(), "{word}");
      &text[end..]
    }
  }
}

fn json_items(
  mut rest: &str,
  close: char,
  item: impl Fn(&str) -> &str,
) -> &str {
  if let Some(rest) = rest.strip_prefix(close) {
    return rest;
  }
  loop {
    rest = item(rest);
    if let Some(rest) = rest.strip_prefix(close) {
      return rest;
    }
    rest = rest.strip_prefix(',').unwrap();
  }
}

fn json_string(text: &str) -> &str {
  let mut rest = text.strip_prefix('"').unwrap();
  loop {
    let end = rest.find(['"', '\\']).unwrap();
    assert!(rest[..end].chars().all(|c| c >= ' '));
    if rest[end..].starts_with('"') {
      return &rest[end + 1..];
    }
    let escape = rest.as_bytes()[end + 1];
    assert!(b"\"\\ntu".contains(&escape));
    rest = &rest[end + 2..];
    if escape == b'u' {
      assert!(u32::from_str_radix(&rest[..4], 16).is_ok());
      rest = &rest[4..];
    }
  }
}

#[test]
fn json_has_what_the_text_has() {
  let folder = Folder::new("json");
  folder.write("a.bas", "10 A$=\"\\\t\u{1b}\":B=A$\n");
  let ran = folder.run("check --json a.bas none.bas");
  let text = ran.text();
  assert_eq!(json(&text), "\n");
  assert_eq!(
    text,
    concat!(
      r#"{"files":[{"file":"a.bas","error":null,"findings":[{"file":"a.bas","#,
      r#""line":1,"column":13,"endLine":1,"endColumn":17,"severity":"error","#,
      r#""class":4,"refusal":null,"message":"kinds of value do not fit","#,
      r#""label":10,"expected":"a number is wanted as the value of B, this is a text","#,
      r#""hint":"the name of a text ends in $; VAL makes a number of a text","#,
      r#""source":"10 A$=\"\\\t\u001b\":B=A$"}]},"#,
      r#"{"file":"none.bas","error":"no such file","findings":[]}],"#,
      r#""counts":{"files":2,"errors":1,"warnings":0,"unread":1}}"#,
      "\n"
    )
  );
  assert_eq!(ran.status, 2);
  folder.write("b.bas", "10 FSEEK #1,1\n20 PRIMT\n");
  let text = folder.run("check b.bas --json").text();
  assert_eq!(json(&text), "\n");
  assert!(text.contains(r#""class":null,"refusal":8"#), "{text}");
  assert!(text.contains(r#""class":null,"refusal":null"#), "{text}");
}

/// Each control letter, also those above ASCII, and the ends of lines that
/// Unicode has beside.
#[test]
fn json_has_no_control_letter() {
  let folder = Folder::new("escapes");
  let text =
    "10 A$=\"\u{1}\u{8}\u{1f}\u{7f}\u{80}\u{9b}\u{2028}\u{2029}\":GOTO 7\n";
  folder.write("a.bas", text);
  let text = folder.run("check --json a.bas").text();
  assert_eq!(json(&text), "\n");
  let source = r#""source":"10 A$=\"\u0001\u0008\u001f\u007f\u0080\u009b\u2028\u2029\":GOTO 7"}"#;
  assert!(text.contains(source), "{text}");
}

/// The mark at a text's begin is no part of the source, one elsewhere is.
#[test]
fn json_leaves_out_the_mark_at_the_begin() {
  let folder = Folder::new("source");
  folder.write("a.bas", "\u{feff}10 GOTO 7\n\u{feff}20 GOTO 8\n");
  let text = folder.run("check --json a.bas").text();
  assert!(text.contains(r#""source":"10 GOTO 7"}"#), "{text}");
  assert!(text.contains("\"source\":\"\u{feff}20 GOTO 8\"}"), "{text}");
}

// --------------------------------------------------------- what is no form

#[test]
fn what_is_no_form_is_named() {
  let folder = Folder::new("other");
  let utf16: Vec<u8> = GOOD.encode_utf16().flat_map(u16::to_le_bytes).collect();
  let swapped: Vec<u8> =
    GOOD.encode_utf16().flat_map(u16::to_be_bytes).collect();
  let wide = |word: fn(u32) -> [u8; 4]| {
    let text = format!("\u{feff}{GOOD}");
    text.chars().flat_map(|c| word(c as u32)).collect::<Vec<u8>>()
  };
  fs::create_dir(folder.0.join("dir")).unwrap();
  folder.write("le.bas", [&[0xff, 0xfe], utf16.as_slice()].concat());
  folder.write("bare.bas", &utf16);
  folder.write("be.bas", [&[0xfe, 0xff], swapped.as_slice()].concat());
  folder.write("bare_be.bas", &swapped);
  folder.write("le32.bas", wide(u32::to_le_bytes));
  folder.write("be32.bas", wide(u32::to_be_bytes));
  folder.write("latin.bas", b"10 CLS\n20 PRINT \"Hi\xe9re\"\n");
  folder.write("gbk.bas", b"10 PRINT \"\xcb\xc9\xca\xf7\"\n");
  folder.write("zeros.bin", [1, 0, 0, 0, 2, 0, 0, 0, 9]);
  folder.write("long.bin", [1, 0, 0, 0, 0, 0, 0, 0, 9, 9, 9, 9, 9]);
  folder.write("noise.bin", b"\x01\xd2\x7f\x9c10 CLS");
  folder.write("good.bas", GOOD);
  for (file, wanted) in [
    ("dir", "a directory"),
    ("none.bas", "no such file"),
    ("good", "did you mean good.bas?"),
    ("no/a.bas", "no such directory as no"),
    ("le.bas", "UTF-16LE"),
    ("bare.bas", "UTF-16LE"),
    ("be.bas", "UTF-16BE"),
    ("bare_be.bas", "UTF-16BE"),
    ("le32.bas", "UTF-32LE"),
    ("be32.bas", "UTF-32BE"),
    ("latin.bas", "byte 0xE9 in line 2); it may be WINDOWS-1252"),
    ("gbk.bas", "GBK"),
    ("zeros.bin", "no text"),
    ("noise.bin", "no text"),
    ("long.bin", "no text"),
  ] {
    for command in ["check", "list", "names", "sheet", "build -o x"] {
      let ran = folder.run(&format!("{command} {file}"));
      assert_eq!(ran.status, 2, "{command} {file}");
      assert!(ran.err.starts_with(&format!("plotform: {file}: ")));
      assert!(ran.err.contains(wanted), "{}", ran.err);
    }
  }
  assert!(!folder.0.join("x").exists());
}

/// A file of as many bytes as are read, and one of a byte more.
#[test]
fn what_is_longer_than_any_form_is_not_read() {
  let folder = Folder::new("most");
  let most = 1 << 24;
  for (len, wanted) in
    [(most, "a zero byte in line 3"), (most + 1, "longer than any")]
  {
    let file = fs::File::create(folder.0.join("a.bas")).unwrap();
    (&file).write_all(GOOD.as_bytes()).unwrap();
    file.set_len(len).unwrap();
    let ran = folder.run("check a.bas");
    let input = fs::File::open(folder.0.join("a.bas")).unwrap();
    let output = folder.command("check -").stdin(input).output().unwrap();
    for ran in [ran, self::ran(output)] {
      assert_eq!(ran.status, 2, "{len}");
      assert!(ran.err.contains(wanted), "{len}: {}", ran.err);
    }
  }
}

// ------------------------------------------------------------------ listings

#[test]
fn a_form_is_listed_from_text_sheet_and_built_file() {
  let folder = Folder::new("list");
  folder.write("a.bas", GOOD);
  let sheet = folder.run("sheet a.bas");
  assert_eq!(sheet.status, 0);
  folder.write("a.bin", &sheet.out);
  assert_eq!(folder.run("build a.bas -o a.built").status, 0);
  for command in ["list", "names"] {
    let wanted = folder.run(&format!("{command} a.bas"));
    assert_eq!((wanted.status, wanted.err.as_str()), (0, ""));
    for file in ["a.bin", "a.built"] {
      let ran = folder.run(&format!("{command} {file}"));
      assert_eq!((ran.status, ran.text()), (0, wanted.text()), "{file}");
    }
    let piped = folder.run_with(&format!("{command} -"), &sheet.out);
    assert_eq!(piped.text(), wanted.text());
  }
  assert_eq!(folder.run("sheet a.bin").out, sheet.out);
  for line in ["check a.built", "check a.bin", "sheet a.built"] {
    assert_eq!(folder.run(line).status, 2, "{line}");
  }
  assert!(folder.run("list a.bas").text().starts_with("0 0 4 "));
}

#[test]
fn listings_of_wrong_forms() {
  let folder = Folder::new("wrong");
  folder.write("wrong.bas", WRONG);
  folder.write("unread.bas", UNREAD);
  folder.write("refused.bas", "10 FSEEK #1,1\n");
  folder.write("good.bas", GOOD);
  let ran = folder.run("list wrong.bas");
  assert!(ran.text().contains("note 4 1 3 7\n"), "{}", ran.text());
  assert_eq!((ran.status, ran.err.as_str()), (1, ""));
  for file in ["unread.bas", "refused.bas"] {
    let ran = folder.run(&format!("names {file}"));
    assert_eq!((ran.status, ran.text().as_str()), (1, ""), "{file}");
    assert!(ran.err.starts_with(&format!("{file}:1:4: error")), "{}", ran.err);
  }
  let ran = folder.run("names good.bas unread.bas wrong.bas");
  assert_eq!(ran.status, 1);
  let text = ran.text();
  let heads: Vec<&str> = text.lines().filter(|l| l.starts_with("==")).collect();
  assert_eq!(heads, ["== good.bas", "== wrong.bas"]);
  let line_of = |wanted: &str| text.lines().position(|line| line == wanted);
  assert!(line_of("== wrong.bas") < line_of("20 A$=1:GOTO 30"));
}

/// A sheet that is refused is told by its word: no text is to blame.
#[test]
fn a_refused_sheet_is_told() {
  let folder = Folder::new("sheet");
  folder.write("a.bin", [1, 0, 0, 0, 0, 0, 0, 0, 9, 9, 9, 9]);
  let ran = folder.run("list a.bin");
  assert_eq!((ran.status, ran.text().as_str()), (1, ""));
  assert!(ran.err.starts_with("plotform: a.bin: refusal 4: "), "{}", ran.err);
}

// --------------------------------------------------------------------- build

#[test]
fn build_writes_only_what_is_right() {
  let folder = Folder::new("build");
  folder.write("good.bas", GOOD);
  folder.write("warned.bas", WARNED);
  folder.write("out", "OLD");
  for text in [WRONG, UNREAD, "10 FSEEK #1,1\n"] {
    folder.write("wrong.bas", text);
    let ran = folder.run("build wrong.bas -o out");
    assert_eq!(ran.status, 1);
    assert!(ran.err.contains("error"), "{}", ran.err);
    assert_eq!(folder.read("out"), b"OLD");
    let ran = folder.run("build wrong.bas -o -");
    assert_eq!((ran.status, ran.out.len()), (1, 0));
  }
  let ran = folder.run("build -o out warned.bas");
  assert_eq!(ran.status, 0);
  assert!(ran.err.contains("warning[3]"), "{}", ran.err);
  assert!(folder.read("out").starts_with(b"PLOTFORM"));
  let ran = folder.run("build good.bas -o -");
  assert_eq!(ran.status, 0);
  assert_eq!(folder.run("build good.bas -o out").status, 0);
  assert_eq!(folder.read("out"), ran.out);
  // Nothing is left beside.
  let files = fs::read_dir(&folder.0).unwrap().count();
  assert_eq!(files, 4);
}

#[test]
fn build_does_not_replace_what_is_no_file() {
  let folder = Folder::new("device");
  folder.write("good.bas", GOOD);
  fs::create_dir(folder.0.join("dir")).unwrap();
  let ran = folder.run("build good.bas -o dir");
  assert_eq!(ran.status, 2);
  assert!(ran.err.contains("a directory"), "{}", ran.err);
  let ran = folder.run("build good.bas -o ./good.bas");
  assert_eq!(ran.status, 2);
  assert_eq!(folder.read("good.bas"), GOOD.as_bytes());
  let ran = folder.run("build good.bas -o no/out");
  assert_eq!(ran.status, 2);
  assert!(ran.err.contains("no such directory as no"), "{}", ran.err);
}

#[cfg(unix)]
#[test]
fn build_writes_into_devices_and_through_links() {
  use std::os::unix::fs::{FileTypeExt, symlink};
  let folder = Folder::new("links");
  folder.write("good.bas", GOOD);
  folder.write("file", "OLD");
  symlink("file", folder.0.join("link")).unwrap();
  assert_eq!(folder.run("build good.bas -o link").status, 0);
  assert!(folder.read("file").starts_with(b"PLOTFORM"));
  assert!(folder.0.join("link").is_symlink());
  assert_eq!(folder.run("build good.bas -o /dev/null").status, 0);
  let null = fs::metadata("/dev/null").unwrap();
  assert!(null.file_type().is_char_device());
  let ran = folder.run("build good.bas -o /dev/full");
  assert_eq!(ran.status, 2);
  assert!(ran.err.contains("can't be written"), "{}", ran.err);
}

/// What replaces a file has its mode.
#[cfg(unix)]
#[test]
fn build_keeps_the_mode() {
  use std::os::unix::fs::PermissionsExt;
  let folder = Folder::new("mode");
  folder.write("good.bas", GOOD);
  let out = folder.0.join("out");
  for mode in [0o600, 0o640, 0o755, 0o666] {
    folder.write("out", "OLD");
    fs::set_permissions(&out, fs::Permissions::from_mode(mode)).unwrap();
    assert_eq!(folder.run("build good.bas -o out").status, 0);
    assert!(folder.read("out").starts_with(b"PLOTFORM"));
    let kept = fs::metadata(&out).unwrap().permissions().mode();
    assert_eq!(kept & 0o777, mode);
  }
}

/// Where the disk takes no more nothing is left beside OUT, and OUT stays.
#[cfg(target_os = "linux")]
#[test]
fn build_that_fails_leaves_nothing() {
  let folder = Folder::new("full");
  folder.write("good.bas", GOOD);
  folder.write("out", "OLD");
  for out in ["out", "new"] {
    let full = "trap '' XFSZ; ulimit -f 0; exec \"$0\" build good.bas -o $1";
    let mut shell = Command::new("sh");
    shell.args(["-c", full, env!("CARGO_BIN_EXE_plotform"), out]);
    let ran = ran(shell.current_dir(&folder.0).output().unwrap());
    assert_eq!(ran.status, 2, "{}", ran.err);
    assert!(ran.err.contains("it can't be written"), "{}", ran.err);
  }
  assert_eq!(folder.read("out"), b"OLD");
  assert_eq!(fs::read_dir(&folder.0).unwrap().count(), 2);
}

// --------------------------------------------------------------- lost output

#[cfg(target_os = "linux")]
#[test]
fn lost_output_is_no_success() {
  let folder = Folder::new("lost");
  folder.write("a.bas", GOOD);
  // Its sheet has no line feed, at which output is written at once.
  folder.write("empty.bas", "");
  folder.write("wrong.bas", WRONG);
  for line in [
    "sheet empty.bas",
    "check a.bas",
    "check --json a.bas",
    "list a.bas",
    "names a.bas",
    "sheet a.bas",
    "build a.bas -o -",
    "--help",
    "--version",
  ] {
    let full = fs::File::options().write(true).open("/dev/full").unwrap();
    let output = folder.command(line).stdout(full).output().unwrap();
    let ran = ran(output);
    assert_eq!(ran.status, 2, "{line}");
    assert!(ran.err.contains("can't be written"), "{line}: {}", ran.err);
    let (reader, writer) = std::io::pipe().unwrap();
    drop(reader);
    let output = folder.command(line).stdout(writer).output().unwrap();
    let ran = self::ran(output);
    assert_eq!((ran.status, ran.err.as_str()), (141, ""), "{line}");
  }
  let full = fs::File::options().write(true).open("/dev/full").unwrap();
  let mut command = folder.command("names wrong.bas none.bas");
  let status = command.stdout(Stdio::null()).stderr(full).status().unwrap();
  assert_eq!(status.code(), Some(2));
}

// ----------------------------------------------------------------- arguments

#[test]
fn the_command_line_is_told_of() {
  let folder = Folder::new("line");
  folder.write("a.bas", GOOD);
  folder.write("-x.bas", GOOD);
  for (line, wanted) in [
    ("", "say what to do"),
    ("chekc a.bas", "there is no command chekc: did you mean check?"),
    ("a.bas", "say what to do with a.bas: plotform check a.bas"),
    ("--hlep", "there is no option --hlep: did you mean --help?"),
    ("check", "name a form: plotform check [--json] FORM.."),
    ("check --jsno a.bas", "there is no option --jsno: did you mean --json?"),
    ("check -x.bas", "./-x.bas"),
    ("names --json a.bas", "names takes no --json"),
    ("check -o x a.bas", "check takes no -o"),
    ("build a.bas", "say with -o where the built form goes"),
    ("build a.bas -o", "name a file behind -o"),
    ("build a.bas a.bas -o x", "build takes one form"),
    ("build a.bas -o x -o y", "say -o once"),
    ("sheet a.bas a.bas", "sheet takes one form"),
    ("help chek", "there is no command chek: did you mean check?"),
  ] {
    let ran = folder.run(line);
    assert_eq!((ran.status, ran.text().as_str()), (2, ""), "{line}");
    assert!(ran.err.contains(wanted), "{line}: {}", ran.err);
  }
  assert_eq!(folder.run("check -- -x.bas").status, 0);
  assert_eq!(folder.run("check ./-x.bas").status, 0);
  assert!(!folder.0.join("x").exists());
}

#[test]
fn help_and_version_are_no_errors() {
  let folder = Folder::new("help");
  for line in ["--help", "-h", "help"] {
    let ran = folder.run(line);
    assert_eq!((ran.status, ran.err.as_str()), (0, ""), "{line}");
    assert!(ran.text().starts_with("plotform: "));
  }
  for command in ["check", "list", "names", "build", "sheet"] {
    for line in [format!("{command} --help"), format!("help {command}")] {
      let ran = folder.run(&line);
      assert_eq!(ran.status, 0, "{line}");
      assert!(ran.text().starts_with(&format!("plotform {command} ")));
      assert!(ran.text().lines().all(|line| line.chars().count() <= 80));
    }
  }
  for line in ["--version", "-V", "check -V"] {
    let ran = folder.run(line);
    assert_eq!(ran.status, 0, "{line}");
    assert!(ran.text().starts_with("plotform 0"));
  }
}
