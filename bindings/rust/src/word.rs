//! The words of a sheet, and the first words of records, notes and entries: a
//! kind in the high byte, a payload in the other three.

use crate::tree::Range;

/// The kinds of a sheet's words, as document 01 numbers them.
pub const RANGE: u32 = 0x01;
pub const ABSENT: u32 = 0x02;
pub const LABEL: u32 = 0x03;
pub const COUNT: u32 = 0x04;
pub const YES_NO: u32 = 0x05;
pub const FILE_MODE: u32 = 0x06;
pub const INPUT_SOURCE: u32 = 0x07;
pub const PRINT_ELEMENT: u32 = 0x08;
pub const PLACE: u32 = 0x09;
pub const EXPONENT: u32 = 0x0a;
pub const MANTISSA: u32 = 0x0b;
pub const PROGRAM: u32 = 0x0f;
pub const LINE: u32 = 0x10;
pub const STMT: u32 = 0x20;
pub const EXPR: u32 = 0x21;

const PAYLOAD_BITS: u32 = 24;
const GREATEST_PAYLOAD: u32 = (1 << PAYLOAD_BITS) - 1;

/// The bits of a range's begin, and of its end.
const PLACE_BITS: usize = 12;

/// The most units of a line, its line feed counted: 4,095.
pub const LONGEST_LINE: usize = (1 << PLACE_BITS) - 1;

/// The most units of a text.
pub const LONGEST_TEXT: usize = 65_536;

/// A word. A payload that does not fit is the greatest, which no kind takes
/// but for counts.
pub fn word(kind: u32, payload: usize) -> u32 {
  let payload = u32::try_from(payload).unwrap_or(u32::MAX);
  (kind << PAYLOAD_BITS) + payload.min(GREATEST_PAYLOAD)
}

pub fn kind(word: u32) -> u32 {
  word >> PAYLOAD_BITS
}

pub fn payload(word: u32) -> usize {
  (word & GREATEST_PAYLOAD) as usize
}

/// A range as a word. One that does not fit is written as 1 to 0, which lies
/// in no line.
pub fn range_word(range: &Range) -> u32 {
  let fits = range.start <= LONGEST_LINE && range.end <= LONGEST_LINE;
  let Range { start, end } =
    if fits { *range } else { Range { start: 1, end: 0 } };
  word(RANGE, start << PLACE_BITS | end)
}

/// The range in a word, whatever its kind.
pub fn range_of(word: u32) -> Range {
  let packed = payload(word);
  Range { start: packed >> PLACE_BITS, end: packed & LONGEST_LINE }
}
