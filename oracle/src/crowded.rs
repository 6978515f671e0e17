//! Sheets with more names than the library's tree of names can hold (32,768
//! entries of the book), which the generator does not reach.

use crate::ast::Range;
use crate::compare;
use crate::rng::Rng;
use crate::run::Input;
use crate::sheet::{self, *};

const LINES: usize = 16;
const UNITS: usize = 4090;
/// So many names of four letters, one from each unit of a line on.
const NAMES: usize = 4080;
const NEXT: u32 = 38;

/// Two sheets: one whose lines are all new names, and one whose last seven
/// lines name again, in lower case, what the third to ninth name.
pub fn crowded(seed: u64) -> [Input; 2] {
  let mut rng = Rng::new(seed);
  let line = |_| (0..UNITS).map(|_| b'A' + rng.below(26) as u8).collect();
  let new: Vec<Vec<u8>> = (0..LINES).map(line).collect();
  let mut again = new.clone();
  for i in 9..LINES {
    again[i] = new[i - 7].to_ascii_lowercase();
  }
  [input(&new), input(&again)]
}

/// A NEXT on each line that names them all.
fn input(lines: &[Vec<u8>]) -> Input {
  let mut words = vec![word(PROGRAM, lines.len() as u32)];
  let mut units = vec![];
  for line in lines {
    words.extend([
      word(LINE, line.len() as u32),
      word(ABSENT, 0),
      word(COUNT, 1),
      word(STMT, NEXT),
      sheet::range_word(&Range::new(0, line.len())),
      word(COUNT, NAMES as u32),
    ]);
    let name = |at| sheet::range_word(&Range::new(at, at + 4));
    words.extend((0..NAMES).map(name));
    units.extend(line.iter().map(|&letter| u16::from(letter)));
  }
  compare::ample(&Input { words, units, ..Input::default() })
}
