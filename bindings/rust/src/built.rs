//! A compiled form as a file, whole by itself: list, notes and book with the
//! text that they cite, behind a head and before a checksum. docs/BUILT.md
//! says the layout; include/hollupsa_built.h reads it in C.

use crate::Compiled;
use crate::compiled::{ENTRY_WORDS, NOTE_WORDS, RECORD_WORDS};
pub use crate::word::LONGEST_LINE;
use crate::word::LONGEST_TEXT;
use std::error::Error;
use std::fmt;

/// The first bytes of a built form.
pub const MAGIC: [u8; 8] = *b"PLOTFORM";

/// The layout that is written and read. It says how many words a record, a
/// note and an entry have, and which parts there are.
pub const LAYOUT: u32 = 1;

/// The bytes of a word.
const WORD: usize = 4;

/// The bytes before the list: magic, layout, and the count of each part.
const HEAD: usize = MAGIC.len() + WORD * (1 + Part::ALL.len());

/// A compiled form with the text that it was made from.
#[derive(Clone, PartialEq, Eq, Debug)]
pub struct Built {
  pub compiled: Compiled,
  /// The lengths of the lines in units; they add up to the text's.
  pub lines: Vec<usize>,
  pub text: Vec<u16>,
}

impl Built {
  /// The bytes of the file. What no form gives (lines that are not the text's,
  /// or more of a part than its [`Part::most`]) is written so that
  /// [`Built::read`] refuses it.
  pub fn write(&self) -> Vec<u8> {
    let Compiled { list, notes, book } = &self.compiled;
    let mut out = MAGIC.to_vec();
    put(&mut out, [LAYOUT]);
    put(&mut out, self.counts().map(word));
    for words in [list, notes, book] {
      put(&mut out, words.iter().copied());
    }
    put(&mut out, self.lines.iter().copied().map(word));
    out.extend(self.text.iter().flat_map(|unit| unit.to_le_bytes()));
    if !self.text.len().is_multiple_of(2) {
      out.extend([0, 0]);
    }
    let sum = checksum(&out);
    put(&mut out, [sum]);
    out
  }

  /// The form in a file's bytes. That calls, targets and places in its words
  /// are any that a form can give is not looked at.
  pub fn read(bytes: &[u8]) -> Result<Self, BuiltError> {
    let counts = counts_of(bytes)?;
    is_whole(bytes, file_bytes(counts))?;
    let [records, notes, entries, lines, units] = counts;
    let mut words = words_of(&bytes[HEAD..]);
    let mut take = |count| words.by_ref().take(count).collect();
    let compiled = Compiled {
      list: take(RECORD_WORDS * records),
      notes: take(NOTE_WORDS * notes),
      book: take(ENTRY_WORDS * entries),
    };
    let lines: Vec<u32> = take(lines);
    let lines: Vec<usize> = lines.iter().map(|len| *len as usize).collect();
    let is_short = lines.iter().all(|len| *len <= LONGEST_LINE);
    if !is_short || lines.iter().sum::<usize>() != units {
      return Err(BuiltError::Lines);
    }
    let padded = &bytes[bytes.len() - WORD - text_bytes(units)..];
    let mut halves =
      padded.as_chunks().0.iter().map(|h| u16::from_le_bytes(*h));
    let text = halves.by_ref().take(units).collect();
    if !units.is_multiple_of(2) && halves.next() != Some(0) {
      return Err(BuiltError::Padding);
    }
    Ok(Self { compiled, lines, text })
  }

  /// How much there is of each part, in the order of the head.
  fn counts(&self) -> [usize; 5] {
    let Compiled { list, notes, book } = &self.compiled;
    [
      list.len() / RECORD_WORDS,
      notes.len() / NOTE_WORDS,
      book.len() / ENTRY_WORDS,
      self.lines.len(),
      self.text.len(),
    ]
  }
}

/// What the head counts.
#[derive(Clone, Copy, PartialEq, Eq, Debug)]
pub enum Part {
  Records,
  Notes,
  Entries,
  Lines,
  Units,
}

impl Part {
  /// In the order of the head.
  pub const ALL: [Self; 5] =
    [Self::Records, Self::Notes, Self::Entries, Self::Lines, Self::Units];

  /// The most that an accepted form gives. Its sheet has at most 65,536 words:
  /// a word makes at most two notes and one entry (crates/bounds), a line takes
  /// three words and their number one. Refusals 1 and 9 bound the others.
  pub fn most(self) -> usize {
    match self {
      Self::Records => 65_535,
      Self::Notes => 131_072,
      Self::Entries => 65_536,
      Self::Lines => 21_845,
      Self::Units => LONGEST_TEXT,
    }
  }
}

impl fmt::Display for Part {
  fn fmt(&self, f: &mut fmt::Formatter<'_>) -> fmt::Result {
    f.write_str(match self {
      Self::Records => "records",
      Self::Notes => "notes",
      Self::Entries => "book entries",
      Self::Lines => "lines",
      Self::Units => "units of text",
    })
  }
}

/// Why bytes are no built form that can be read here.
#[derive(Clone, Copy, PartialEq, Eq, Debug)]
pub enum BuiltError {
  /// The first bytes are not [`MAGIC`].
  Magic,
  /// There are fewer bytes than the head takes, or than it says.
  TooShort { found: usize, wanted: usize },
  /// Another layout than [`LAYOUT`].
  Layout { found: u32 },
  /// More of a part than any form gives.
  TooMany { part: Part, found: u32 },
  /// There are more bytes than the head says.
  TooLong { found: usize, wanted: usize },
  /// The checksum is not that of the bytes before it.
  Checksum { found: u32, wanted: u32 },
  /// The lengths of the lines do not add up to the text, or one is above
  /// [`LONGEST_LINE`].
  Lines,
  /// What fills the text's last word is not zero.
  Padding,
}

impl fmt::Display for BuiltError {
  fn fmt(&self, f: &mut fmt::Formatter<'_>) -> fmt::Result {
    match self {
      Self::Magic => {
        write!(f, "this is not a built form: build one of the form's text")
      }
      Self::TooShort { found, wanted } => write!(
        f,
        "the file ends after {found} of at least {wanted} bytes: copy it again whole, or build it again"
      ),
      Self::Layout { found } => write!(
        f,
        "the file has layout {found}, and layout {LAYOUT} is read here: build it again with this version"
      ),
      Self::TooMany { part, found } => write!(
        f,
        "the file says {found} {part}, and no form gives more than {}: build it again",
        part.most()
      ),
      Self::TooLong { found, wanted } => write!(
        f,
        "the file has {found} bytes, and its head says {wanted}: copy it again, or build it again"
      ),
      Self::Checksum { found, wanted } => write!(
        f,
        "the file is damaged (its checksum is {found:08x}, that of its bytes {wanted:08x}): copy it again, or build it again"
      ),
      Self::Lines => write!(
        f,
        "the lengths of the file's lines do not add up to its text: build it again"
      ),
      Self::Padding => write!(
        f,
        "something stands behind the last unit of the file's text: build it again"
      ),
    }
  }
}

impl Error for BuiltError {}

/// The counts of a head, each within its bound.
fn counts_of(bytes: &[u8]) -> Result<[usize; 5], BuiltError> {
  let begin = bytes.len().min(MAGIC.len());
  if bytes[..begin] != MAGIC[..begin] {
    return Err(BuiltError::Magic);
  }
  is_long_enough(bytes, file_bytes([0; 5]))?;
  let mut words = words_of(&bytes[MAGIC.len()..HEAD]);
  let mut next = || words.next().expect("the head has a word for each");
  let found = next();
  if found != LAYOUT {
    return Err(BuiltError::Layout { found });
  }
  let found = Part::ALL.map(|part| (part, next()));
  for (part, found) in found {
    if found as usize > part.most() {
      return Err(BuiltError::TooMany { part, found });
    }
  }
  Ok(found.map(|(_, count)| count as usize))
}

/// Whether there are just so many bytes, and the last word is their checksum.
fn is_whole(bytes: &[u8], wanted: usize) -> Result<(), BuiltError> {
  is_long_enough(bytes, wanted)?;
  let found = bytes.len();
  if found > wanted {
    return Err(BuiltError::TooLong { found, wanted });
  }
  let (before, sum) = bytes.split_at(found - WORD);
  let wanted = checksum(before);
  match words_of(sum).next() {
    Some(found) if found != wanted => {
      Err(BuiltError::Checksum { found, wanted })
    }
    _ => Ok(()),
  }
}

fn is_long_enough(bytes: &[u8], wanted: usize) -> Result<(), BuiltError> {
  let found = bytes.len();
  if found < wanted {
    return Err(BuiltError::TooShort { found, wanted });
  }
  Ok(())
}

/// The bytes of a file with so much of each part, none above its bound.
fn file_bytes(counts: [usize; 5]) -> usize {
  let [records, notes, entries, lines, units] = counts;
  let words =
    RECORD_WORDS * records + NOTE_WORDS * notes + ENTRY_WORDS * entries + lines;
  HEAD + WORD * words + text_bytes(units) + WORD
}

/// The bytes of so many units, filled up to whole words.
fn text_bytes(units: usize) -> usize {
  units.div_ceil(2) * WORD
}

/// A number as a word; what does not fit is the greatest word.
fn word(number: usize) -> u32 {
  u32::try_from(number).unwrap_or(u32::MAX)
}

fn put(out: &mut Vec<u8>, words: impl IntoIterator<Item = u32>) {
  out.extend(words.into_iter().flat_map(u32::to_le_bytes));
}

fn words_of(bytes: &[u8]) -> impl Iterator<Item = u32> + '_ {
  bytes.as_chunks().0.iter().map(|word| u32::from_le_bytes(*word))
}

/// CRC-32 of IEEE 802.3, the lowest bit of a byte first.
fn checksum(bytes: &[u8]) -> u32 {
  !bytes.iter().fold(!0, |sum, byte| {
    (0..8).fold(sum ^ u32::from(*byte), |sum, _| {
      if sum & 1 == 1 { sum >> 1 ^ 0xedb8_8320 } else { sum >> 1 }
    })
  })
}
