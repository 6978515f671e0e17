//! The proved library, as include/hollupsa.h declares it. The oracle takes this
//! file, too.

unsafe extern "C" {
  pub fn hollupsa_compile(
    sheet: *const u32,
    words: usize,
    text: *const u16,
    units: usize,
    list: *mut u32,
    list_words: usize,
    notes: *mut u32,
    notes_words: usize,
    book: *mut u32,
    book_words: usize,
    work: *mut u32,
    work_words: usize,
    answer: *mut [usize; 5],
  );
}
