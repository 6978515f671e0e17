//! What a call gives: a list, notes and a book, or a refusal.

use crate::tree;
use crate::word::{kind, payload, range_of};
use std::error::Error;
use std::fmt;

/// The words of a record, a note and a book entry.
pub(crate) const RECORD_WORDS: usize = 5;
pub(crate) const NOTE_WORDS: usize = 4;
pub(crate) const ENTRY_WORDS: usize = 4;

/// The five numbers of an answer: all zeros but for the counts if accepted, all
/// zeros but for number and place if refused.
#[derive(Clone, Copy, PartialEq, Eq, Debug)]
pub struct Answer {
  pub refusal: u32,
  pub place: usize,
  pub records: usize,
  pub notes: usize,
  pub entries: usize,
}

impl Answer {
  /// Why the sheet was refused; none if it was accepted.
  pub fn refused(self) -> Option<Refusal> {
    Refusal::new(self.refusal, self.place)
  }
}

/// Why a sheet was not compiled; the numbers are document 01's, but for an
/// unknown one.
#[derive(Clone, Copy, PartialEq, Eq, Debug)]
pub enum Refusal {
  TooLong,
  Surrogate,
  WorkTooShort,
  Form { place: usize },
  TooDeep { place: usize },
  Lines { place: usize },
  Range { place: usize },
  Fseek { place: usize },
  ListTooShort,
  NotesTooShort,
  BookTooShort,
  Unknown { number: u32 },
}

impl Refusal {
  /// None for number 0, accepted.
  fn new(number: u32, place: usize) -> Option<Self> {
    Some(match number {
      0 => return None,
      1 => Self::TooLong,
      2 => Self::Surrogate,
      3 => Self::WorkTooShort,
      4 => Self::Form { place },
      5 => Self::TooDeep { place },
      6 => Self::Lines { place },
      7 => Self::Range { place },
      8 => Self::Fseek { place },
      9 => Self::ListTooShort,
      10 => Self::NotesTooShort,
      11 => Self::BookTooShort,
      number => Self::Unknown { number },
    })
  }

  /// Document 01's number.
  pub fn number(self) -> u32 {
    match self {
      Self::TooLong => 1,
      Self::Surrogate => 2,
      Self::WorkTooShort => 3,
      Self::Form { .. } => 4,
      Self::TooDeep { .. } => 5,
      Self::Lines { .. } => 6,
      Self::Range { .. } => 7,
      Self::Fseek { .. } => 8,
      Self::ListTooShort => 9,
      Self::NotesTooShort => 10,
      Self::BookTooShort => 11,
      Self::Unknown { number } => number,
    }
  }

  /// The index of the offending word; the sheet's length if its end offends.
  pub fn place(self) -> Option<usize> {
    match self {
      Self::Form { place }
      | Self::TooDeep { place }
      | Self::Lines { place }
      | Self::Range { place }
      | Self::Fseek { place } => Some(place),
      _ => None,
    }
  }
}

impl fmt::Display for Refusal {
  fn fmt(&self, f: &mut fmt::Formatter<'_>) -> fmt::Result {
    match self {
      Self::TooLong => write!(
        f,
        "the form is too long: split it so that sheet and text have at most 65,536 words and units each"
      ),
      Self::Surrogate => write!(
        f,
        "the text has a character outside the first 65,536: take it out, the recorders cannot show it"
      ),
      Self::WorkTooShort => {
        write!(f, "work is too short: lend as many words as the sheet has")
      }
      Self::Form { place } => write!(
        f,
        "word {place} of the sheet cannot stand there: make the sheet again, it is damaged or was made for something else"
      ),
      Self::TooDeep { place } => write!(
        f,
        "the statement or expression at word {place} is nested deeper than 64: take it apart with variables or more lines"
      ),
      Self::Lines { place } => write!(
        f,
        "at word {place} the lines' lengths do not add up to the text: give the text that the sheet was made from, whole"
      ),
      Self::Range { place } => write!(
        f,
        "the range at word {place} lies outside its line, holds no string or is no name: mend the name or the string there"
      ),
      Self::Fseek { place } => write!(
        f,
        "word {place} is an FSEEK, which this compiler does not take: read the file from its start"
      ),
      Self::ListTooShort => write!(
        f,
        "list is too short, or there are more than 65,535 records: lend five words a record, or split the form"
      ),
      Self::NotesTooShort => {
        write!(f, "notes are too short: lend four words a note")
      }
      Self::BookTooShort => {
        write!(f, "book is too short: lend four words an entry")
      }
      Self::Unknown { number } => write!(
        f,
        "the refusal {number} is not known here: link the library of this version"
      ),
    }
  }
}

impl Error for Refusal {}

/// What an accepted sheet gives.
#[derive(Clone, PartialEq, Eq, Debug)]
pub struct Compiled {
  pub(crate) list: Vec<u32>,
  pub(crate) notes: Vec<u32>,
  pub(crate) book: Vec<u32>,
}

impl Compiled {
  /// The records; a record's address is its place among them.
  pub fn records(&self) -> impl ExactSizeIterator<Item = Record> + '_ {
    self.list.chunks_exact(RECORD_WORDS).map(|w| Record {
      call: kind(w[0]),
      line: payload(w[0]),
      range: range_of(w[1]),
      args: [w[2], w[3], w[4]],
    })
  }

  /// The notes in order of making.
  pub fn notes(&self) -> impl ExactSizeIterator<Item = Note> + '_ {
    self.notes.chunks_exact(NOTE_WORDS).map(|w| Note {
      class: kind(w[0]),
      line: payload(w[0]),
      range: range_of(w[1]),
      warning: w[2] == 2,
      lost: w[3] as usize,
    })
  }

  /// Document 01's listing: a line a record, then a line a note.
  pub fn listing(&self) -> String {
    let records = self.records().enumerate().map(|(at, record)| {
      let Record { call, line, args: [a, b, c], .. } = record;
      format!("{at} {line} {call} {a} {b} {c}\n")
    });
    let notes = self.notes().map(|note| {
      let Note { class, line, range, .. } = note;
      format!("note {class} {line} {} {}\n", range.start, range.end)
    });
    records.chain(notes).collect()
  }

  /// The book entries in order of making.
  pub fn entries(&self) -> impl ExactSizeIterator<Item = Entry> + '_ {
    self.book.chunks_exact(ENTRY_WORDS).map(|w| Entry {
      kind: match kind(w[0]) {
        50 => EntryKind::Name { sigil: w[3] as u16 },
        51 => EntryKind::Datum { quoted: w[3] == 1 },
        _ => EntryKind::Byte { value: w[3] as u8 },
      },
      number: payload(w[0]),
      start: w[1] as usize,
      len: w[2] as usize,
    })
  }
}

/// One instruction: document 01's call, the line from 0, and its arguments.
#[derive(Clone, Copy, PartialEq, Eq, Debug)]
pub struct Record {
  pub call: u32,
  pub line: usize,
  pub range: tree::Range,
  pub args: [u32; 3],
}

/// What is wrong, by document 01's classes.
#[derive(Clone, Copy, PartialEq, Eq, Debug)]
pub struct Note {
  pub class: u32,
  pub line: usize,
  pub range: tree::Range,
  pub warning: bool,
  /// Class 10: how many units of the name are left out, from its first blank up
  /// to its sign or its end. 0 in all others.
  pub lost: usize,
}

/// What the notes of each class say, from class 1.
const MESSAGES: [&str; 13] = [
  "label does not rise",
  "no line has this label",
  "no DATA at this label: reading starts at the first datum",
  "kinds of value do not fit",
  "name of the wrong kind",
  "too few arguments",
  "too many arguments",
  "text longer than 255",
  "number too large",
  "blank in a name",
  "WRITE drops this value",
  "not allowed here",
  "WHILE without WEND",
];

impl Note {
  /// What is wrong, without a capital at its begin or a full stop at its end.
  /// None of a class that document 01 has not.
  fn message(self) -> Option<&'static str> {
    MESSAGES.get((self.class as usize).checked_sub(1)?).copied()
  }
}

impl fmt::Display for Note {
  fn fmt(&self, f: &mut fmt::Formatter<'_>) -> fmt::Result {
    match self.message() {
      Some(message) => f.write_str(message)?,
      None => write!(f, "a note of the unknown class {}", self.class)?,
    }
    match (self.class, self.lost) {
      (10, 1) => f.write_str(": 1 unit of the name is left out"),
      (10, lost @ 2..) => write!(f, ": {lost} units of the name are left out"),
      _ => Ok(()),
    }
  }
}

/// A name, datum or byte: where it stands in the whole text.
#[derive(Clone, Copy, PartialEq, Eq, Debug)]
pub struct Entry {
  pub kind: EntryKind,
  /// Its number within its kind, which records cite.
  pub number: usize,
  pub start: usize,
  pub len: usize,
}

#[derive(Clone, Copy, PartialEq, Eq, Debug)]
pub enum EntryKind {
  /// The sigil's unit, or 0.
  Name {
    sigil: u16,
  },
  Datum {
    quoted: bool,
  },
  Byte {
    value: u8,
  },
}
