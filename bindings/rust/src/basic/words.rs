//! The reserved words, and where a name ends among them.

use crate::display::BOM;
use crate::spelling::{FUNCTIONS, REMARKS, STATEMENTS, distance};

/// A blank at a text's begin.
pub(crate) const BYTE_ORDER_MARK: u16 = BOM as u16;

/// What a reserved word is for. That decides where it is looked for.
#[derive(Clone, Copy, PartialEq, Eq, Debug)]
pub(crate) enum Sort {
  /// Begins a statement.
  Statement,
  /// Begins a value: a function, FN, NOT, INKEY$.
  Value,
  /// Stands between values or behind them.
  Joining,
}

/// A reserved word that stands somewhere.
#[derive(Clone, Copy, PartialEq, Eq, Debug)]
pub(crate) struct Word {
  pub text: &'static str,
  pub sort: Sort,
}

const JOINING: [&str; 9] =
  ["AND", "OR", "THEN", "TO", "STEP", "ELSE", "GOTO", "GOSUB", "AS"];

/// Words that begin a value, beside the functions.
const VALUES: [&str; 3] = ["FN", "NOT", "INKEY$"];

/// The statement words; a colon by itself has none.
pub(crate) fn statement_words() -> impl Iterator<Item = &'static str> {
  STATEMENTS[..STATEMENTS.len() - 1].iter().copied()
}

/// All reserved words. GOTO, GOSUB and INKEY$ are of two sorts; the sort that
/// is found behind a name comes first.
fn reserved() -> impl Iterator<Item = Word> {
  let sorted = |sort| move |text| Word { text, sort };
  let functions = FUNCTIONS.iter().map(|&(text, _)| text);
  JOINING
    .into_iter()
    .map(sorted(Sort::Joining))
    .chain(VALUES.into_iter().map(sorted(Sort::Value)))
    .chain(functions.map(sorted(Sort::Value)))
    .chain(statement_words().map(sorted(Sort::Statement)))
}

/// Whether the units begin with a word, in upper or lower case.
pub(crate) fn begins(units: &[u16], word: &str) -> bool {
  let letters = word.bytes();
  units.len() >= word.len()
    && letters.zip(units).all(|(letter, &unit)| upper(unit) == letter as u16)
}

fn upper(unit: u16) -> u16 {
  u8::try_from(unit).map_or(unit, |byte| byte.to_ascii_uppercase() as u16)
}

/// The longest reserved word that the units begin with.
pub(crate) fn word_at(units: &[u16]) -> Option<Word> {
  let mut longest: Option<Word> = None;
  if !units.first().is_some_and(|&unit| is_letter(unit)) {
    return None;
  }
  for word in reserved() {
    let longer = longest.is_none_or(|than| word.text.len() > than.text.len());
    if longer && begins(units, word.text) {
      longest = Some(word);
    }
  }
  longest
}

/// The joining word that the units begin with; none of them begins another.
fn joining_at(units: &[u16]) -> Option<Word> {
  let text = JOINING.into_iter().find(|word| begins(units, word))?;
  Some(Word { text, sort: Sort::Joining })
}

/// The longest statement word that the units begin with.
pub(crate) fn statement_at(units: &[u16]) -> Option<&'static str> {
  let words = statement_words().filter(|word| begins(units, word));
  words.max_by_key(|word| word.len())
}

pub(crate) fn is_letter(unit: u16) -> bool {
  u8::try_from(unit).is_ok_and(|byte| byte.is_ascii_alphabetic())
}

pub(crate) fn is_digit(unit: u16) -> bool {
  u8::try_from(unit).is_ok_and(|byte| byte.is_ascii_digit())
}

pub(crate) fn is_sigil(unit: u16) -> bool {
  unit == b'%' as u16 || unit == b'$' as u16
}

/// Whether a unit stands between tokens and says nothing.
pub(crate) fn is_blank(unit: u16) -> bool {
  unit == b' ' as u16 || unit == b'\t' as u16
}

/// How many blanks and tabs stand at the end.
pub(crate) fn trailing_blanks(units: &[u16]) -> usize {
  units.iter().rev().take_while(|&&unit| is_blank(unit)).count()
}

/// The place of the first unit from `at` on that is no U+0020, the one blank
/// that may stand inside a name, a number or a sign.
pub(crate) fn past_spaces(units: &[u16], at: usize) -> usize {
  let spaces = units[at..].iter().take_while(|&&unit| unit == b' ' as u16);
  at + spaces.count()
}

/// The place of the first unit from `at` on that is no blank and no tab.
fn past_blanks(units: &[u16], at: usize) -> usize {
  let blanks = units[at..].iter().take_while(|&&unit| is_blank(unit));
  at + blanks.count()
}

/// The end of the letters and digits from `at` on.
pub(crate) fn run_end(units: &[u16], at: usize) -> usize {
  let run = units[at..].iter().take_while(|&&u| is_letter(u) || is_digit(u));
  at + run.count()
}

/// Where a name ends that begins at `start`, and the reserved word that ends
/// it without a blank before. The units begin with a letter there, and with no
/// reserved word.
pub(crate) fn name_end(units: &[u16], start: usize) -> (usize, Option<Word>) {
  let mut at = start + 1;
  loop {
    let Some(&unit) = units.get(at) else {
      return (at, None);
    };
    if is_sigil(unit) {
      return (at + 1, None);
    }
    if is_digit(unit) {
      at += 1;
    } else if is_letter(unit) {
      if let Some(word) = word_inside(units, at) {
        return (at, Some(word));
      }
      at += 1;
    } else {
      let next = past_spaces(units, at);
      if next == at || !goes_on(units, next) {
        return (at, None);
      }
      at = next;
      if is_sigil(units[at]) {
        return (at + 1, None);
      }
      at += 1;
    }
  }
}

/// The word that ends a name inside its letters: a function with its
/// parenthesis, or a joining word. A statement, and a function without its
/// parenthesis, can't stand behind a name, so their letters are the name's.
fn word_inside(units: &[u16], at: usize) -> Option<Word> {
  let is_called = |word: &Word| {
    let behind = past_blanks(units, at + word.text.len());
    let takes_argument = !VALUES.contains(&word.text);
    let is_open = units.get(behind) == Some(&(b'(' as u16));
    word.sort == Sort::Value && takes_argument && is_open
  };
  let here = &units[at..];
  word_at(here).filter(is_called).or_else(|| joining_at(here))
}

/// Whether a name goes on behind its blanks with what stands at `at`: a sigil,
/// a digit, or letters that are no reserved word. A statement's word is one
/// only if it stands alone, or before a word that ends names.
fn goes_on(units: &[u16], at: usize) -> bool {
  let Some(&unit) = units.get(at) else {
    return false;
  };
  if is_sigil(unit) || is_digit(unit) {
    return true;
  }
  if !is_letter(unit) {
    return false;
  }
  match word_at(&units[at..]) {
    None => true,
    Some(word) => {
      let end = at + word.text.len();
      let letters = units.get(end).is_some_and(|&unit| is_letter(unit))
        && word_inside(units, end).is_none();
      word.sort == Sort::Statement && letters
    }
  }
}

/// Whether ELSE stands in a text as a word.
pub(crate) fn holds_else(units: &[u16]) -> bool {
  let is_else = |at: usize| {
    let is_begin = at == 0 || !is_letter(units[at - 1]);
    is_begin && begins(&units[at..], "ELSE")
  };
  (0..units.len()).any(is_else)
}

/// The letters of the longest statement word.
const LONGEST: usize = "DEBUGPRINT".len();

/// The statement word that a misspelt one is nearest to, if one is near: one
/// letter wrong, left out, added or swapped with its neighbour, or two in a
/// word of six letters and more. The first letter is right, or swapped.
pub(crate) fn nearest(word: &str) -> Option<&'static str> {
  let most = if word.len() < 6 { 1 } else { 2 };
  if word.len() > LONGEST + most {
    return None;
  }
  let begin = word.as_bytes();
  let begins_so = |known: &&str| match (begin, known.as_bytes()) {
    ([a, b, ..], [c, d, ..]) => a == c || (a == d && b == c),
    _ => false,
  };
  statement_words()
    .filter(begins_so)
    .filter(|known| *known == "REM" || !is_remark(known))
    .map(|known| (distance(word, known), known))
    .filter(|&(far, _)| far <= most)
    .min()
    .map(|(_, known)| known)
}

/// Whether what stands behind the word is a remark.
pub(crate) fn is_remark(word: &str) -> bool {
  REMARKS.iter().any(|(remark, _)| *remark == word)
}
