//! Stand-ins for what the Rust sources import and their folder lacks. They do
//! what the originals do as far as the five files ask it, and remember a few
//! things in passing (see `Memory`) that the recorder needs and its trait
//! does not hand it.

use crate::HashMap;
use crate::ast::{Expr, ExprKind, Label, Stmt};
use std::cell::{Cell, RefCell};
use std::fmt::{self, Debug, Formatter};
use std::marker::PhantomData;
use std::num::NonZeroUsize;
use std::ops::{Deref, Index};
use std::str::FromStr;

// ---------------------------------------------------------------- memory

/// What the stand-ins remember while one program is compiled.
struct Memory {
  /// Address of the whole text's first unit: a slice of it knows its place.
  base: Cell<usize>,
  /// Start and length, in the whole text, of every piece that was turned into
  /// a String or a Utf16String, in order.
  reads: RefCell<Vec<(usize, usize)>>,
  /// The value beside the node that an arena gave out last.
  value: Cell<Option<Value>>,
  /// Number of arguments of the node given out last, if it is a call of a
  /// system function.
  arity: Cell<usize>,
  /// Diagnostics made so far: their order of making.
  made: Cell<usize>,
  /// How often a quoted datum of one quote was met.
  one_quote: Cell<usize>,
  /// Panic there, as the Rust does.
  strict: Cell<bool>,
}

thread_local! {
  static MEMORY: Memory = const {
    Memory {
      base: Cell::new(0),
      reads: RefCell::new(Vec::new()),
      value: Cell::new(None),
      arity: Cell::new(0),
      made: Cell::new(0),
      one_quote: Cell::new(0),
      strict: Cell::new(false),
    }
  };
}

/// Forgets everything and takes `text` as the whole text.
pub fn begin(text: &Utf16Str) {
  MEMORY.with(|m| {
    m.base.set(text.0.as_ptr() as usize);
    m.reads.borrow_mut().clear();
    m.value.set(None);
    m.arity.set(0);
    m.made.set(0);
    m.one_quote.set(0);
  })
}

/// The last `count` pieces of text that were read, in order.
pub fn last_reads(count: usize) -> Vec<(usize, usize)> {
  MEMORY.with(|m| {
    let reads = m.reads.borrow();
    reads[reads.len() - count..].to_vec()
  })
}

pub fn last_read() -> (usize, usize) {
  last_reads(1)[0]
}

/// How often the declared difference was met since `begin`.
pub fn one_quote_data() -> usize {
  MEMORY.with(|m| m.one_quote.get())
}

/// With `true` a quoted datum of one quote panics, as in the Rust.
pub fn set_strict(strict: bool) {
  MEMORY.with(|m| m.strict.set(strict))
}

// ---------------------------------------------------------------- ranges

#[derive(Clone, PartialEq, Eq)]
pub struct Range {
  pub start: usize,
  pub end: usize,
}

impl Range {
  pub fn new(start: usize, end: usize) -> Self {
    Self { start, end }
  }

  pub fn empty(start: usize) -> Self {
    Self { start, end: start }
  }

  pub fn range(&self) -> std::ops::Range<usize> {
    self.start..self.end
  }

  pub fn offset(&self, by: isize) -> Self {
    Self {
      start: (self.start as isize + by) as usize,
      end: (self.end as isize + by) as usize,
    }
  }
}

impl Debug for Range {
  fn fmt(&self, f: &mut Formatter) -> fmt::Result {
    write!(f, "{}..{}", self.start, self.end)
  }
}

// ---------------------------------------------------------------- vectors

/// The item of an array type: `SmallVec<[T; N]>` names its items so.
pub trait Array {
  type Item;
}

impl<T, const N: usize> Array for [T; N] {
  type Item = T;
}

pub struct SmallVec<A: Array>(pub Vec<A::Item>);

impl<A: Array> Deref for SmallVec<A> {
  type Target = [A::Item];
  fn deref(&self) -> &[A::Item] {
    &self.0
  }
}

impl<'a, A: Array> IntoIterator for &'a SmallVec<A> {
  type Item = &'a A::Item;
  type IntoIter = std::slice::Iter<'a, A::Item>;
  fn into_iter(self) -> Self::IntoIter {
    self.0.iter()
  }
}

/// A vector with at least one item; its length is never zero.
pub struct NonEmptyVec<A: Array>(Vec<A::Item>);

impl<A: Array> NonEmptyVec<A> {
  pub fn new(items: Vec<A::Item>) -> Option<Self> {
    if items.is_empty() { None } else { Some(Self(items)) }
  }

  pub fn len(&self) -> NonZeroUsize {
    NonZeroUsize::new(self.0.len()).unwrap()
  }
}

impl<A: Array> Deref for NonEmptyVec<A> {
  type Target = [A::Item];
  fn deref(&self) -> &[A::Item] {
    &self.0
  }
}

macro_rules! plain_traits {
  ($name:ident) => {
    impl<A: Array> Debug for $name<A>
    where
      A::Item: Debug,
    {
      fn fmt(&self, f: &mut Formatter) -> fmt::Result {
        self.0.fmt(f)
      }
    }

    impl<A: Array> Clone for $name<A>
    where
      A::Item: Clone,
    {
      fn clone(&self) -> Self {
        Self(self.0.clone())
      }
    }

    impl<A: Array> PartialEq for $name<A>
    where
      A::Item: PartialEq,
    {
      fn eq(&self, other: &Self) -> bool {
        self.0 == other.0
      }
    }

    impl<A: Array> Eq for $name<A> where A::Item: Eq {}
  };
}

plain_traits!(SmallVec);
plain_traits!(NonEmptyVec);

// ---------------------------------------------------------------- arenas

pub struct Id<T>(usize, PhantomData<T>);

impl<T> Clone for Id<T> {
  fn clone(&self) -> Self {
    *self
  }
}

impl<T> Copy for Id<T> {}

impl<T> PartialEq for Id<T> {
  fn eq(&self, other: &Self) -> bool {
    self.0 == other.0
  }
}

impl<T> Eq for Id<T> {}

impl<T> Debug for Id<T> {
  fn fmt(&self, f: &mut Formatter) -> fmt::Result {
    write!(f, "#{}", self.0)
  }
}

pub type ExprId = Id<Expr>;
pub type StmtId = Id<Stmt>;

/// A literal's value as the sheet has it: e from 0 to 256, and m.
#[derive(Clone, Copy, PartialEq, Eq, Debug)]
pub struct Value {
  pub e: u32,
  pub m: u32,
}

/// Nodes, and beside a number literal its value. Giving out a node by index,
/// as the compiler does, remembers it in `Memory`; `peek` does not.
pub struct Arena<T> {
  nodes: Vec<(T, Option<Value>)>,
}

/// What is remembered of a node besides its value.
pub trait Node {
  fn arity(&self) -> usize {
    0
  }
}

impl Node for Stmt {}

impl Node for Expr {
  fn arity(&self) -> usize {
    match &self.kind {
      ExprKind::SysFuncCall { args, .. } => args.len().get(),
      _ => 0,
    }
  }
}

impl<T: Node> Arena<T> {
  pub fn new() -> Self {
    Self { nodes: vec![] }
  }

  pub fn alloc(&mut self, node: T, value: Option<Value>) -> Id<T> {
    self.nodes.push((node, value));
    Id(self.nodes.len() - 1, PhantomData)
  }

  pub fn peek(&self, id: Id<T>) -> &T {
    &self.nodes[id.0].0
  }

  pub fn value(&self, id: Id<T>) -> Option<Value> {
    self.nodes[id.0].1
  }

  pub fn all(&self) -> impl Iterator<Item = &T> {
    self.nodes.iter().map(|(node, _)| node)
  }

  pub fn all_with_values(&self) -> impl Iterator<Item = &(T, Option<Value>)> {
    self.nodes.iter()
  }
}

impl<T: Node> Index<Id<T>> for Arena<T> {
  type Output = T;
  fn index(&self, id: Id<T>) -> &T {
    let (node, value) = &self.nodes[id.0];
    MEMORY.with(|m| {
      m.value.set(*value);
      m.arity.set(node.arity());
    });
    node
  }
}

// ---------------------------------------------------------------- programs

pub struct ParseResult<T> {
  pub content: T,
  pub stmt_arena: Arena<Stmt>,
  pub expr_arena: Arena<Expr>,
  pub diagnostics: Vec<Diagnostic>,
}

pub struct ProgramLine {
  pub source_len: usize,
  pub label: Option<(Range, Label)>,
  pub stmts: SmallVec<[StmtId; 1]>,
}

pub struct Program {
  pub lines: Vec<ParseResult<ProgramLine>>,
}

/// A note of the Rust, with the number of its making and the arguments of the
/// system function that was looked at last: 'must have n arguments' is said
/// of too few and of too many alike.
#[derive(Clone, Debug)]
pub struct Diagnostic {
  pub range: Range,
  pub message: String,
  pub is_error: bool,
  pub made: usize,
  pub arity: usize,
}

impl Diagnostic {
  pub fn new_error(range: Range, message: impl ToString) -> Self {
    Self::new(range, message, true)
  }

  pub fn new_warning(range: Range, message: impl ToString) -> Self {
    Self::new(range, message, false)
  }

  fn new(range: Range, message: impl ToString, is_error: bool) -> Self {
    let (made, arity) = MEMORY.with(|m| {
      let made = m.made.get();
      m.made.set(made + 1);
      (made, m.arity.get())
    });
    let message = message.to_string();
    Self { range, message, is_error, made, arity }
  }
}

// ---------------------------------------------------------------- text

#[repr(transparent)]
pub struct Utf16Str([u16]);

#[derive(Clone, PartialEq, Eq, Debug)]
pub struct Utf16String(pub Vec<u16>);

impl Utf16Str {
  pub fn from_units(units: &[u16]) -> &Self {
    // The layout is that of [u16].
    unsafe { &*(units as *const [u16] as *const Self) }
  }

  pub fn len(&self) -> usize {
    self.0.len()
  }

  fn remember(&self) {
    MEMORY.with(|m| {
      let at = self.0.as_ptr() as usize;
      let start = at.wrapping_sub(m.base.get()) / 2;
      m.reads.borrow_mut().push((start, self.0.len()));
    })
  }

  #[allow(clippy::should_implement_trait, clippy::inherent_to_string)]
  pub fn to_string(&self) -> String {
    self.remember();
    String::from_utf16(&self.0).expect("no surrogate is let in")
  }

  pub fn to_owned(&self) -> Utf16String {
    self.remember();
    Utf16String(self.0.to_vec())
  }
}

impl AsRef<Utf16Str> for Utf16Str {
  fn as_ref(&self) -> &Utf16Str {
    self
  }
}

impl Index<std::ops::Range<usize>> for Utf16Str {
  type Output = Utf16Str;
  fn index(&self, range: std::ops::Range<usize>) -> &Utf16Str {
    // compile_data takes 1..len-1 of a quoted datum: for a datum of one quote
    // this is 1..0, where the Rust panics. Document 01 declares the
    // difference: the datum is empty. No other slice of the five files can
    // have this shape.
    if range == (1..0) && self.0.len() == 1 {
      MEMORY.with(|m| {
        m.one_quote.set(m.one_quote.get() + 1);
        assert!(!m.strict.get(), "slice 1..0: a quoted datum of one quote");
      });
      return Self::from_units(&self.0[1..]);
    }
    Self::from_units(&self.0[range])
  }
}

impl Index<std::ops::RangeFrom<usize>> for Utf16Str {
  type Output = Utf16Str;
  fn index(&self, range: std::ops::RangeFrom<usize>) -> &Utf16Str {
    Self::from_units(&self.0[range])
  }
}

impl Index<std::ops::RangeTo<usize>> for Utf16Str {
  type Output = Utf16Str;
  fn index(&self, range: std::ops::RangeTo<usize>) -> &Utf16Str {
    Self::from_units(&self.0[range])
  }
}

pub trait Utf16StrExt {
  fn ends_with_char(&self, c: char) -> bool;
}

impl Utf16StrExt for Utf16Str {
  fn ends_with_char(&self, c: char) -> bool {
    self.0.last().is_some_and(|&unit| unit as u32 == c as u32)
  }
}

// ---------------------------------------------------------------- numbers

/// A number that is not negative: m times 2^(e-160), zero at e 0.
#[derive(Clone, Copy, PartialEq, Eq, Debug)]
pub struct Mbf5 {
  pub e: u32,
  pub m: u32,
}

pub enum ParseRealError {
  Infinite,
  #[allow(dead_code)]
  Malformed,
}

impl Mbf5 {
  pub const ONE: Self = Self { e: 129, m: 1 << 31 };

  pub fn is_zero(&self) -> bool {
    self.e == 0
  }

  pub fn is_one(&self) -> bool {
    *self == Self::ONE
  }

  pub fn is_positive(&self) -> bool {
    self.e != 0
  }
}

impl FromStr for Mbf5 {
  type Err = ParseRealError;

  /// Document 01 leaves the decimal reading out: the sheet decides a
  /// literal's value. So this is the value beside the node that the compiler
  /// looked at last, which is the literal whose text it is reading; the text
  /// itself is not looked at. The generator sees to it that both agree.
  fn from_str(_text: &str) -> Result<Self, ParseRealError> {
    let value = MEMORY.with(|m| m.value.get()).expect("a number literal");
    if value.e > 255 {
      Err(ParseRealError::Infinite)
    } else {
      Ok(Self { e: value.e, m: value.m })
    }
  }
}

// The rest of Mbf5 is asked by codegen.rs only. An f64 holds each value
// exactly.

impl From<Mbf5> for f64 {
  fn from(num: Mbf5) -> f64 {
    if num.e == 0 { 0.0 } else { num.m as f64 * 2f64.powi(num.e as i32 - 160) }
  }
}

impl PartialEq<f64> for Mbf5 {
  fn eq(&self, other: &f64) -> bool {
    f64::from(*self) == *other
  }
}

impl TryFrom<f64> for Mbf5 {
  type Error = ();

  fn try_from(num: f64) -> Result<Self, ()> {
    if num == 0.0 {
      return Ok(Self { e: 0, m: 0 });
    }
    let mut e = 160;
    let mut num = num;
    while num >= 4294967296.0 {
      num /= 2.0;
      e += 1;
    }
    while num < 2147483648.0 {
      num *= 2.0;
      e -= 1;
    }
    if num.fract() != 0.0 || !(1..256).contains(&e) {
      return Err(());
    }
    Ok(Self { e: e as u32, m: num as u32 })
  }
}

// ---------------------------------------------------------------- names

#[derive(Clone, Copy, PartialEq, Eq, Debug)]
pub struct Symbol(pub usize);

/// The interner: equal names get one symbol, numbered as first seen.
#[derive(Clone)]
pub struct DefaultStringInterner {
  names: Vec<String>,
  symbols: HashMap<String, Symbol>,
}

impl DefaultStringInterner {
  pub fn new() -> Self {
    Self { names: vec![], symbols: HashMap::new() }
  }

  pub fn get_or_intern(&mut self, name: String) -> Symbol {
    if let Some(&known) = self.symbols.get(&name) {
      return known;
    }
    let symbol = Symbol(self.names.len());
    self.names.push(name.clone());
    self.symbols.insert(name, symbol);
    symbol
  }

  pub fn resolve(&self, symbol: Symbol) -> &str {
    &self.names[symbol.0]
  }
}

/// phf's map: the pairs, searched in order.
pub struct Map<K: 'static, V: 'static>(pub &'static [(K, V)]);

impl<V> Map<&'static str, V> {
  pub fn get(&self, key: &str) -> Option<&V> {
    self.0.iter().find(|(k, _)| *k == key).map(|(_, v)| v)
  }
}

#[macro_export]
macro_rules! phf_map {
  ($($key:expr => $value:expr),* $(,)?) => {
    $crate::Map(&[$(($key, $value)),*])
  };
}
