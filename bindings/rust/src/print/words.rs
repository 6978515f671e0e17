//! Names and numbers by the rules of the dialect, as the reader has them.

use crate::basic::expr;
use crate::basic::words;
use crate::tree::Number;

pub(crate) use words::{BYTE_ORDER_MARK, is_letter, is_sigil};
pub(crate) use words::{is_blank, trailing_blanks};

/// The longest reserved word that the units begin with.
pub fn reserved(units: &[u16]) -> Option<&'static str> {
  words::word_at(units).map(|word| word.text)
}

/// Where the name ends that the units begin with; 0 if they begin with none.
pub fn name_end(units: &[u16]) -> usize {
  let begins = units.first().is_some_and(|unit| is_letter(*unit));
  if begins && reserved(units).is_none() {
    words::name_end(units, 0).0
  } else {
    0
  }
}

/// Whether a text is a name, and is read as one where a parenthesis follows or
/// none.
pub fn is_name(name: &[u16], parenthesis: bool) -> bool {
  let behind = parenthesis.then_some(u16::from(b'('));
  let units: Vec<u16> = name.iter().copied().chain(behind).collect();
  !name.is_empty() && name_end(&units) == name.len()
}

/// Where the number ends that the units begin with; 0 if they begin with none.
pub fn number_end(units: &[u16]) -> usize {
  expr::number_end(units, 0).unwrap_or(0)
}

/// The value of a text that is a number and nothing else.
pub fn number_value(text: &[u16]) -> Option<Number> {
  let whole = !text.is_empty() && number_end(text) == text.len();
  whole.then(|| expr::number_value(&String::from_utf16_lossy(text))).flatten()
}
