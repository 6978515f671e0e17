//! Reads the files that a command names, and says what they are if they can't
//! be used.

use hollupsa::built::{self, Built};
use hollupsa::display;
use std::ffi::OsStr;
use std::fs::{self, File, Metadata};
use std::io::{self, ErrorKind, Read};
use std::os::unix::fs::MetadataExt;
use std::path::Path;

pub enum Content {
  /// BASIC text.
  Text(String),
  Built(Built),
  /// An input of document 01's program.
  Sheet(Vec<u32>, Vec<u16>),
}

/// No form's text, built form or sheet is longer by far.
const MOST: u64 = 1 << 24;

/// A file's name as it is shown.
pub fn name(file: &OsStr) -> String {
  display::clean(&file.to_string_lossy())
}

/// Whether a form that is named, or standard input, is the file.
pub fn is_same_file(form: &OsStr, file: &Metadata) -> bool {
  let form =
    if form == "-" { Path::new("/dev/stdin") } else { Path::new(form) };
  fs::metadata(form)
    .is_ok_and(|form| (form.dev(), form.ino()) == (file.dev(), file.ino()))
}

/// Whether a standard stream was closed before the program began: the runtime
/// then opens /dev/null in its place, for reading and writing. A shell's own
/// /dev/null is open for one of them.
pub fn is_closed(stream: u32) -> bool {
  const BOTH: u32 = 2;
  let is_null = fs::read_link(format!("/proc/self/fd/{stream}"))
    .is_ok_and(|file| file == Path::new("/dev/null"));
  let info = fs::read_to_string(format!("/proc/self/fdinfo/{stream}"));
  let flags = info.ok().and_then(|info| {
    let line = info.lines().find_map(|line| line.strip_prefix("flags:"))?;
    u32::from_str_radix(line.trim(), 8).ok()
  });
  is_null && flags.is_some_and(|flags| flags & 3 == BOTH)
}

/// Reads a file; says what it is and what to do if it can't be used.
pub fn read(file: &OsStr) -> Result<Content, String> {
  let bytes = read_bytes(file).map_err(|error| unreadable(file, &error))?;
  if bytes.len() as u64 > MOST {
    return Err("longer than any form: name a form".to_string());
  }
  // A text may begin with the same letters; it has no zero byte.
  if bytes.starts_with(&built::MAGIC) && bytes.contains(&0) {
    let built = Built::read(&bytes);
    return built.map(Content::Built).map_err(|error| error.to_string());
  }
  if let Some((sheet, text)) = parse_sheet(&bytes) {
    return Ok(Content::Sheet(sheet, text));
  }
  text(bytes).map(Content::Text)
}

fn read_bytes(file: &OsStr) -> io::Result<Vec<u8>> {
  let mut bytes = vec![];
  if file == "-" {
    if is_closed(0) {
      return Err(io::Error::other("standard input is closed"));
    }
    io::stdin().lock().take(MOST + 1).read_to_end(&mut bytes)?;
  } else {
    File::open(file)?.take(MOST + 1).read_to_end(&mut bytes)?;
  }
  Ok(bytes)
}

fn unreadable(file: &OsStr, error: &io::Error) -> String {
  match error.kind() {
    ErrorKind::NotFound => no_such_file(file),
    ErrorKind::PermissionDenied => {
      "no right to read this file: change its mode".to_string()
    }
    ErrorKind::IsADirectory => "a directory: name the forms in it".to_string(),
    _ => format!("it can't be read: {error}"),
  }
}

fn no_such_file(file: &OsStr) -> String {
  let with = |end: &str| {
    let mut longer = file.to_os_string();
    longer.push(end);
    fs::exists(&longer).unwrap_or(false).then_some(longer)
  };
  if let Some(longer) = [".bas", ".BAS"].iter().find_map(|end| with(end)) {
    return format!("no such file: did you mean {}?", name(&longer));
  }
  match Path::new(file).parent() {
    Some(folder) if !folder.as_os_str().is_empty() && !folder.exists() => {
      format!("no such directory as {}", name(folder.as_os_str()))
    }
    _ => "no such file".to_string(),
  }
}

// ------------------------------------------------------------------ sheets

/// Words and units, if the bytes are just as many as their two counts say.
fn parse_sheet(bytes: &[u8]) -> Option<(Vec<u32>, Vec<u16>)> {
  let (words, rest) = bytes.split_first_chunk()?;
  let (units, rest) = rest.split_first_chunk()?;
  let words = u32::from_le_bytes(*words) as usize;
  let units = u32::from_le_bytes(*units) as usize;
  let (sheet, text) = rest.split_at_checked(words.checked_mul(4)?)?;
  if text.len() != units.checked_mul(2)? {
    return None;
  }
  let (sheet, _) = sheet.as_chunks();
  let (text, _) = text.as_chunks();
  let sheet = sheet.iter().map(|word| u32::from_le_bytes(*word)).collect();
  let text = text.iter().map(|unit| u16::from_le_bytes(*unit)).collect();
  Some((sheet, text))
}

/// An input of document 01's program: the counts, the words, the units.
pub fn to_bytes(sheet: &[u32], text: &[u16]) -> Vec<u8> {
  let counts = [sheet.len() as u32, text.len() as u32];
  let words = counts.iter().chain(sheet).flat_map(|word| word.to_le_bytes());
  words.chain(text.iter().flat_map(|unit| unit.to_le_bytes())).collect()
}

// ------------------------------------------------------------------- texts

/// The text of a file's bytes, or what else they look like.
fn text(bytes: Vec<u8>) -> Result<String, String> {
  if let Some(encoding) = wide_encoding(&bytes) {
    return Err(save_as(&format!("{encoding} text"), encoding));
  }
  if let Some(at) = bytes.iter().position(|byte| *byte == 0) {
    let line = line_of(&bytes, at);
    return Err(format!("a zero byte in line {line}: {NO_TEXT}"));
  }
  String::from_utf8(bytes).map_err(|error| {
    let (at, len) =
      (error.utf8_error().valid_up_to(), error.utf8_error().error_len());
    let bytes = error.as_bytes();
    if bytes.iter().any(is_control) {
      return NO_TEXT.to_string();
    }
    if len.is_none() {
      return "UTF-8 that ends inside a letter: the file is not whole"
        .to_string();
    }
    let line = line_of(bytes, at);
    let encoding = narrow_encoding(bytes);
    let what = format!(
      "not UTF-8 (byte 0x{:02X} in line {line}); it may be {encoding}",
      bytes[at]
    );
    save_as(&what, encoding)
  })
}

/// The line that a byte stands in, from 1.
fn line_of(bytes: &[u8], at: usize) -> usize {
  1 + bytes[..at].iter().filter(|byte| **byte == b'\n').count()
}

const NO_TEXT: &str = "no text, no built form, and not so long as an input of document 01's program says it is: name a form";

/// Whether a text in any encoding of one byte has this byte nowhere.
fn is_control(byte: &u8) -> bool {
  byte.is_ascii_control()
    && !matches!(byte, b'\t' | b'\n' | b'\r' | 0x0c | 0x1a)
}

fn save_as(what: &str, encoding: &str) -> String {
  format!(
    "{what}: save it as UTF-8 in the editor, or with iconv -f {encoding} -t UTF-8"
  )
}

/// UTF-16 or UTF-32, by the mark at the begin or by where the zeros stand.
fn wide_encoding(bytes: &[u8]) -> Option<&'static str> {
  const MARKS: [(&[u8], &str); 4] = [
    (&[0xff, 0xfe, 0, 0], "UTF-32LE"),
    (&[0, 0, 0xfe, 0xff], "UTF-32BE"),
    (&[0xff, 0xfe], "UTF-16LE"),
    (&[0xfe, 0xff], "UTF-16BE"),
  ];
  let mark = MARKS.iter().find(|(mark, _)| bytes.starts_with(mark));
  if let Some((_, encoding)) = mark {
    return Some(encoding);
  }
  // Most of a form is ASCII, whose other byte is 0.
  let zeros = |from: usize| {
    bytes.iter().skip(from).step_by(2).filter(|byte| **byte == 0).count()
  };
  let most = bytes.len() / 2 * 3 / 4;
  match (zeros(0), zeros(1)) {
    (0, odd) if odd > most => Some("UTF-16LE"),
    (even, 0) if even > most => Some("UTF-16BE"),
    _ => None,
  }
}

/// What bytes look like that are not UTF-8. Chinese letters in GBK are two
/// bytes, the first of which is above 0x80 and mostly the second, too; in
/// Windows-1252 a letter is one byte, mostly between ASCII letters.
fn narrow_encoding(bytes: &[u8]) -> &'static str {
  let runs = bytes.split(|byte| byte.is_ascii()).map(<[u8]>::len);
  let (mut even, mut odd) = (0, 0);
  for run in runs.filter(|run| *run > 0) {
    if run % 2 == 0 { even += 1 } else { odd += 1 }
  }
  if even > odd { "GBK" } else { "WINDOWS-1252" }
}
