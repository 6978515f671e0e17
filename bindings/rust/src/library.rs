//! Safe functions over the proved library.

use crate::compiled::{Answer, Compiled, Refusal};
use crate::compiled::{ENTRY_WORDS, NOTE_WORDS, RECORD_WORDS};
use crate::linked::hollupsa_compile;

/// Compiles into lent buffers. Every word of all four is written.
pub fn compile_into(
  sheet: &[u32],
  text: &[u16],
  list: &mut [u32],
  notes: &mut [u32],
  book: &mut [u32],
  work: &mut [u32],
) -> Answer {
  let mut answer = [0_usize; 5];
  // SAFETY: slices are aligned, never null and good for their lengths, and a
  // `&mut` overlaps with nothing; the library asks nothing else.
  unsafe {
    hollupsa_compile(
      sheet.as_ptr(),
      sheet.len(),
      text.as_ptr(),
      text.len(),
      list.as_mut_ptr(),
      list.len(),
      notes.as_mut_ptr(),
      notes.len(),
      book.as_mut_ptr(),
      book.len(),
      work.as_mut_ptr(),
      work.len(),
      &mut answer,
    );
  }
  let [refusal, place, records, notes, entries] = answer;
  Answer { refusal: refusal as u32, place, records, notes, entries }
}

/// Compiles a sheet with its text.
pub fn compile(sheet: &[u32], text: &[u16]) -> Result<Compiled, Refusal> {
  // What suffices for every sheet of so many words (crates/bounds): 3 records
  // are at most 4 words, a word makes at most two notes and one entry. A sheet
  // that is too long is refused whatever is lent.
  let words = sheet.len().min(65536);
  let mut list = vec![0; 7 * words];
  let mut notes = vec![0; 8 * words];
  let mut book = vec![0; 4 * words];
  let mut work = vec![0; words];
  let answer =
    compile_into(sheet, text, &mut list, &mut notes, &mut book, &mut work);
  if let Some(refusal) = answer.refused() {
    return Err(refusal);
  }
  list.truncate(RECORD_WORDS * answer.records);
  notes.truncate(NOTE_WORDS * answer.notes);
  book.truncate(ENTRY_WORDS * answer.entries);
  Ok(Compiled { list, notes, book })
}
