//! The two input formats, the listing and the whole answer.

use crate::form;
use crate::recorder::Recorder;
use crate::run::{Answer, Compiled, Input, answer};
use std::fmt::Write as _;
use std::io::{self, Read, Write};

/// The program's own limit for words and for units.
const LISTING_LIMIT: usize = 2048;

/// Reads a program's input: word count, unit count, words, units. None if it
/// is above the limit or short. Bytes behind are ignored.
pub fn program_input(bytes: &[u8]) -> Option<Input> {
  let mut bytes = bytes;
  let words = take_u32(&mut bytes)? as usize;
  let units = take_u32(&mut bytes)? as usize;
  if words > LISTING_LIMIT || units > LISTING_LIMIT {
    return None;
  }
  let (words, units) = take_both(&mut bytes, words, units)?;
  let work = words.len();
  let ample = usize::MAX;
  let input =
    Input { words, units, list: ample, notes: ample, book: ample, work };
  Some(input)
}

fn take_u32(bytes: &mut &[u8]) -> Option<u32> {
  let (head, rest) = bytes.split_first_chunk::<4>()?;
  *bytes = rest;
  Some(u32::from_le_bytes(*head))
}

fn take_both(
  bytes: &mut &[u8],
  words: usize,
  units: usize,
) -> Option<(Vec<u32>, Vec<u16>)> {
  let (word_bytes, rest) = bytes.split_at_checked(words.checked_mul(4)?)?;
  let (unit_bytes, rest) = rest.split_at_checked(units.checked_mul(2)?)?;
  *bytes = rest;
  let words = word_bytes
    .chunks_exact(4)
    .map(|c| u32::from_le_bytes(c.try_into().unwrap()))
    .collect();
  let units = unit_bytes
    .chunks_exact(2)
    .map(|c| u16::from_le_bytes(c.try_into().unwrap()))
    .collect();
  Some((words, units))
}

/// Document 01's listing of a program's input.
pub fn listing(bytes: &[u8]) -> String {
  match program_input(bytes) {
    None => "refused 1\n".to_string(),
    Some(input) => match answer(&input) {
      Answer::Refused(refusal) => format!("refused {}\n", refusal.number),
      Answer::Accepted(compiled) => listing_of(&compiled),
    },
  }
}

pub fn listing_of(compiled: &Compiled) -> String {
  let mut out = String::new();
  for (at, record) in compiled.recorder.records.iter().enumerate() {
    let [a, b, c] = record.args;
    writeln!(out, "{at} {} {} {a} {b} {c}", record.line, record.call).unwrap();
  }
  for note in &compiled.notes {
    writeln!(
      out,
      "note {} {} {} {}",
      note.class, note.line, note.start, note.end
    )
    .unwrap();
  }
  out
}

/// An input in the program's format.
pub fn program_bytes(input: &Input) -> Vec<u8> {
  let mut bytes = vec![];
  for count in [input.words.len(), input.units.len()] {
    bytes.extend((count as u32).to_le_bytes());
  }
  put_both(&mut bytes, input);
  bytes
}

fn put_both(bytes: &mut Vec<u8>, input: &Input) {
  for word in &input.words {
    bytes.extend(word.to_le_bytes());
  }
  for unit in &input.units {
    bytes.extend(unit.to_le_bytes());
  }
}

/// Writes an input in the replay format: six counts, words, units.
pub fn write_input(out: &mut impl Write, input: &Input) -> io::Result<()> {
  let mut bytes = vec![];
  for count in [
    input.words.len(),
    input.units.len(),
    input.list,
    input.notes,
    input.book,
    input.work,
  ] {
    bytes.extend(u32::try_from(count).unwrap_or(u32::MAX).to_le_bytes());
  }
  put_both(&mut bytes, input);
  out.write_all(&bytes)
}

/// Reads inputs in the replay format, one at a time.
pub struct Inputs<R: Read>(pub R);

impl<R: Read> Iterator for Inputs<R> {
  type Item = io::Result<Input>;

  fn next(&mut self) -> Option<io::Result<Input>> {
    self.read().transpose()
  }
}

impl<R: Read> Inputs<R> {
  fn read(&mut self) -> io::Result<Option<Input>> {
    let mut first = [0];
    if self.0.read(&mut first)? == 0 {
      return Ok(None);
    }
    let mut rest = [0; 23];
    self.0.read_exact(&mut rest)?;
    let head: Vec<u8> = first.into_iter().chain(rest).collect();
    let mut head = &head[..];
    let counts: [usize; 6] =
      std::array::from_fn(|_| take_u32(&mut head).unwrap() as usize);
    let [words, units, list, notes, book, work] = counts;
    let size = words
      .checked_mul(4)
      .and_then(|size| size.checked_add(units.checked_mul(2)?))
      .filter(|&size| size <= 1 << 30)
      .ok_or_else(|| io::Error::other("counts beyond reason"))?;
    let mut body = vec![0; size];
    self.0.read_exact(&mut body)?;
    let (words, units) = take_both(&mut &body[..], words, units).unwrap();
    Ok(Some(Input { words, units, list, notes, book, work }))
  }
}

/// The whole answer: a line of five numbers, then records, notes, entries.
pub fn whole_answer(input: &Input) -> String {
  let mut out = String::new();
  match answer(input) {
    Answer::Refused(refusal) => {
      let (number, place) = (refusal.number, refusal.place);
      writeln!(out, "answer {number} {place} 0 0 0").unwrap();
    }
    Answer::Accepted(Compiled { recorder, notes, .. }) => {
      let Recorder { records, entries, .. } = &recorder;
      let counts = (records.len(), notes.len(), entries.len());
      let (r, n, b) = counts;
      writeln!(out, "answer 0 0 {r} {n} {b}").unwrap();
      for record in records {
        put_line(&mut out, 'r', &record.words());
      }
      for note in &notes {
        put_line(&mut out, 'n', &note.words());
      }
      for entry in entries {
        put_line(&mut out, 'b', &entry.words());
      }
    }
  }
  out
}

fn put_line(out: &mut String, mark: char, words: &[u32]) {
  out.push(mark);
  for word in words {
    write!(out, " {word}").unwrap();
  }
  out.push('\n');
}

/// Refusal and place by the form alone, "0 0" if there is none.
pub fn form_line(input: &Input) -> String {
  match form::refusal(&input.words, &input.units, input.work) {
    Some(refusal) => format!("{} {}\n", refusal.number, refusal.place),
    None => "0 0\n".to_string(),
  }
}

/// An input for people to read.
pub fn readable(input: &Input) -> String {
  let mut out = String::new();
  writeln!(
    out,
    "words {} units {} list {} notes {} book {} work {}",
    input.words.len(),
    input.units.len(),
    input.list,
    input.notes,
    input.book,
    input.work
  )
  .unwrap();
  for words in input.words.chunks(8) {
    let words: Vec<String> =
      words.iter().map(|word| format!("{word:08X}")).collect();
    writeln!(out, "  {}", words.join(" ")).unwrap();
  }
  writeln!(out, "  {:?}", String::from_utf16_lossy(&input.units)).unwrap();
  out
}
