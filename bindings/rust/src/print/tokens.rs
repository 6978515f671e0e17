//! Writes the tokens of one line, with blanks between them.

use super::words;
use crate::tree::Range;

/// Answers with a number below the given one.
pub type Choose<'a> = &'a mut dyn FnMut(usize) -> usize;

/// What stands before a token, or is to be written.
#[derive(Clone, Copy, PartialEq, Eq)]
enum Token {
  /// The line's begin.
  Begin,
  /// A word of a statement, of an operator or between values.
  Word,
  /// The word of a function; a parenthesis follows.
  Function,
  Name,
  Number,
  /// A string, a prompt or a datum.
  Quoted,
  /// What goes on to a colon.
  Rest,
  Sign(u8),
}

/// So many parentheses in each other are added that nothing asks for; the
/// reader takes 100 parts in each other, the compiler 64.
const ADDED: usize = 20;

pub struct Writer<'a> {
  /// What the tree's ranges cite.
  source: &'a [u16],
  choose: Choose<'a>,
  units: Vec<u16>,
  before: Token,
  /// Where the last token begins and ends.
  last: Range,
  /// The last name, if it is the last token or the last but a word.
  name: Option<Range>,
  tokens: usize,
  /// The token before which no parenthesis is added.
  bare: Option<usize>,
  /// So many parts stand around the one that is written.
  depth: usize,
}

impl<'a> Writer<'a> {
  pub fn new(source: &'a [u16], choose: Choose<'a>) -> Self {
    Self {
      source,
      choose,
      units: vec![],
      before: Token::Begin,
      last: Range::default(),
      name: None,
      tokens: 0,
      bare: None,
      depth: 0,
    }
  }

  pub fn units(self) -> Vec<u16> {
    self.units
  }

  pub fn choose(&mut self, among: usize) -> usize {
    (self.choose)(among)
  }

  pub fn byte_order_mark(&mut self) {
    self.units.push(words::BYTE_ORDER_MARK);
  }

  /// Blanks at the line's begin or end, where none are needed.
  pub fn outer_blanks(&mut self) {
    self.blanks("");
  }

  /// The end of the last token.
  pub fn at(&self) -> usize {
    self.last.end
  }

  /// From a token's first unit to the last token's end.
  pub fn since(&self, start: usize) -> Range {
    Range { start, end: self.last.end }
  }

  /// Where something is missing: behind the last token.
  pub fn nothing(&self) -> Range {
    self.since(self.last.end)
  }

  /// One part in another.
  pub fn deeper<T>(&mut self, write: impl FnOnce(&mut Self) -> T) -> T {
    self.depth += 1;
    let written = write(self);
    self.depth -= 1;
    written
  }

  /// Behind a name no parenthesis is added at the next token: it would make
  /// the name that of an array.
  pub fn bare_begin(&mut self) {
    self.bare = (self.before == Token::Name).then_some(self.tokens);
  }

  pub fn can_add_parentheses(&self) -> bool {
    self.bare != Some(self.tokens) && self.depth < ADDED
  }

  // --------------------------------------------------------------- tokens

  pub fn word(&mut self, word: &str) -> Range {
    let word = self.in_some_case(word);
    self.token(Token::Word, &word)
  }

  pub fn function_word(&mut self, word: &str) -> Range {
    let word = self.in_some_case(word);
    self.token(Token::Function, &word)
  }

  /// A sign of one unit.
  pub fn sign(&mut self, sign: &str) -> Range {
    self.token(Token::Sign(sign.as_bytes()[0]), &units(sign))
  }

  /// The sign or the word of an operator. Blanks can stand inside a sign.
  pub fn operator(&mut self, operator: &str) -> Range {
    let bytes = operator.as_bytes();
    match bytes {
      [letter, ..] if letter.is_ascii_alphabetic() => self.word(operator),
      [_] => self.sign(operator),
      [first, second] if self.choose(4) == 1 => {
        let blanks = " ".repeat(1 + self.choose(2));
        let [first, second] = [first, second].map(|&sign| char::from(sign));
        let sign = format!("{first}{blanks}{second}");
        self.token(Token::Sign(bytes[0]), &units(&sign))
      }
      _ => self.token(Token::Sign(bytes[0]), &units(operator)),
    }
  }

  /// A label, or another number that the source does not say.
  pub fn number(&mut self, digits: &str) -> Range {
    self.token(Token::Number, &units(digits))
  }

  pub fn number_at(&mut self, range: &Range) -> Range {
    self.copied(Token::Number, range)
  }

  pub fn name_at(&mut self, range: &Range) -> Range {
    self.copied(Token::Name, range)
  }

  /// A string, a prompt or a datum. An empty datum is no token.
  pub fn quoted(&mut self, range: &Range) -> Range {
    if range.start == range.end {
      return self.nothing();
    }
    self.copied(Token::Quoted, range)
  }

  /// What goes on to a colon, from directly behind the word.
  pub fn rest(&mut self, range: &Range) -> Range {
    let rest = self.behind(range);
    self.before = Token::Rest;
    rest
  }

  /// What goes on to the line's end, from directly behind the word. Blanks at
  /// its end are no part of the statement.
  pub fn remark(&mut self, range: &Range) -> Range {
    let rest = self.behind(range);
    self.last.end -= words::trailing_blanks(&self.units[rest.start..]);
    rest
  }

  fn behind(&mut self, range: &Range) -> Range {
    let start = self.last.end;
    self.units.extend(&self.source[range.start..range.end]);
    self.last.end = self.units.len();
    Range { start, end: self.last.end }
  }

  fn copied(&mut self, token: Token, range: &Range) -> Range {
    let source = self.source;
    self.token(token, &source[range.start..range.end])
  }

  fn token(&mut self, token: Token, text: &[u16]) -> Range {
    self.gap(token, text);
    let start = self.units.len();
    self.units.extend(text);
    self.last = Range { start, end: self.units.len() };
    self.name = match (token, self.before) {
      (Token::Name, _) => Some(self.last),
      (Token::Word, Token::Name) => self.name,
      _ => None,
    };
    self.before = token;
    self.tokens += 1;
    self.last
  }

  fn in_some_case(&mut self, word: &str) -> Vec<u16> {
    match self.choose(4) {
      1 => units(&word.to_ascii_lowercase()),
      2 => units(&(word[..1].to_string() + &word[1..].to_ascii_lowercase())),
      _ => units(word),
    }
  }

  // --------------------------------------------------------------- blanks

  fn gap(&mut self, token: Token, text: &[u16]) {
    if self.before == Token::Begin {
      return;
    }
    match self.needs(token, text) {
      Needs::Tab => {
        let tab = ["\t", " \t", "\t "][self.choose(3)];
        self.units.extend(units(tab));
      }
      Needs::Blank => self.blanks(" "),
      // None, where none is needed.
      Needs::Nothing if self.choose(4) == 1 => {}
      Needs::Nothing => self.blanks(if self.usual(token) { " " } else { "" }),
    }
  }

  fn blanks(&mut self, usual: &str) {
    let blanks = match self.choose(10) {
      1 => " ",
      2 => "  ",
      3 => "\t",
      4 => " \t ",
      _ => usual,
    };
    self.units.extend(units(blanks));
  }

  /// Whether a blank is written where there is no choice.
  fn usual(&self, token: Token) -> bool {
    use Token::*;
    match (self.before, token) {
      (Begin | Function, _) => false,
      (Word, Sign(sign)) => b"(-+#".contains(&sign),
      (Sign(_), Sign(_)) => false,
      (Sign(sign), _) => sign == b')' || sign == b'?',
      (_, Sign(_)) => false,
      _ => true,
    }
  }

  /// What has to stand before a token, so that it is not read in another way.
  fn needs(&self, token: Token, text: &[u16]) -> Needs {
    let before = &self.units[self.last.start..self.last.end];
    let letter = text.first().is_some_and(|unit| words::is_letter(*unit));
    match (self.before, token) {
      (Token::Rest, Token::Word) => Needs::Blank,
      (Token::Word, _) if letter => {
        let units = [before, text].concat();
        let alone = words::reserved(&units).map(str::len) == Some(before.len());
        Needs::blank(!alone || !self.name_ends(text))
      }
      // A tab ends what a blank can stand in.
      (Token::Name, Token::Name | Token::Number) if !ends_in_sigil(before) => {
        Needs::Tab
      }
      (Token::Name, Token::Function) => Needs::blank(!ends_in_sigil(before)),
      (Token::Name, _) if letter => Needs::blank(!self.name_ends(text)),
      (Token::Number, Token::Number) => Needs::Tab,
      // It would be the number's E.
      (Token::Number, Token::Name) if matches!(text[0], 0x45 | 0x65) => {
        Needs::Tab
      }
      _ => Needs::Nothing,
    }
  }

  /// Whether the last name, behind which a word may stand, ends where it does
  /// with the text directly behind them.
  fn name_ends(&self, text: &[u16]) -> bool {
    let Some(Range { start, end }) = self.name else {
      return true;
    };
    let units = [&self.units[start..], text].concat();
    words::name_end(&units) == end - start
  }
}

enum Needs {
  Nothing,
  Blank,
  Tab,
}

impl Needs {
  fn blank(needed: bool) -> Self {
    if needed { Self::Blank } else { Self::Nothing }
  }
}

fn ends_in_sigil(name: &[u16]) -> bool {
  name.last().is_some_and(|unit| words::is_sigil(*unit))
}

fn units(text: &str) -> Vec<u16> {
  text.encode_utf16().collect()
}
