//! The proved compiler's static library, if it was there when this was built.

use crate::run::Input;
use std::io;

/// What a call leaves: the five numbers of the answer and the four buffers.
#[derive(Default)]
pub struct Lent {
  pub answer: [u32; 5],
  pub list: Vec<u32>,
  pub notes: Vec<u32>,
  pub book: Vec<u32>,
  pub work: Vec<u32>,
}

impl Lent {
  /// Lends buffers of the input's lengths, full of ones.
  pub fn lend(&mut self, input: &Input) {
    let lengths = [input.list, input.notes, input.book, input.work];
    let buffers =
      [&mut self.list, &mut self.notes, &mut self.book, &mut self.work];
    for (buffer, length) in buffers.into_iter().zip(lengths) {
      buffer.clear();
      buffer.resize(length, u32::MAX);
    }
    self.answer = [u32::MAX; 5];
  }
}

#[cfg(library)]
#[path = "../../bindings/rust/src/linked.rs"]
mod linked;

/// Compiles into what is lent.
#[cfg(library)]
pub fn compile(words: &[u32], units: &[u16], lent: &mut Lent) {
  let mut answer = [usize::MAX; 5];
  // SAFETY: the slices are good for their lengths and do not overlap.
  unsafe {
    linked::hollupsa_compile(
      words.as_ptr(),
      words.len(),
      units.as_ptr(),
      units.len(),
      lent.list.as_mut_ptr(),
      lent.list.len(),
      lent.notes.as_mut_ptr(),
      lent.notes.len(),
      lent.book.as_mut_ptr(),
      lent.book.len(),
      lent.work.as_mut_ptr(),
      lent.work.len(),
      &mut answer,
    );
  }
  // What does not fit is no answer that the Rust gives.
  lent.answer = answer.map(|n| u32::try_from(n).unwrap_or(u32::MAX));
}

#[cfg(not(library))]
pub fn compile(_words: &[u32], _units: &[u16], _lent: &mut Lent) {
  unreachable!("`needed` was asked first");
}

/// An error if the library is not linked.
pub fn needed() -> io::Result<()> {
  if cfg!(library) {
    return Ok(());
  }
  Err(io::Error::other(
    "built without the library: run tools/library, then oracle/build",
  ))
}
