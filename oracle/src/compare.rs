//! The library against the Rust on generated inputs: answer, list, notes in
//! order of making (so by line too), book, and zeros behind and in work.

use crate::generate::{self, Sort};
use crate::jobs;
use crate::library::{self, Lent};
use crate::points::Changes;
use crate::replay;
use crate::run::{self, Answer, Compiled, Input};
use crate::selftest::guarded;
use std::fs;
use std::io::{self, Write};
use std::sync::Mutex;
use std::sync::atomic::{AtomicU64, Ordering};

/// What to run: which inputs, on how many threads, and where to write the
/// smallest that fails.
pub struct Plan<'a> {
  pub seed: u64,
  pub count: u64,
  pub sort: Sort,
  pub small: bool,
  pub jobs: usize,
  pub out: &'a str,
}

/// A failing input and what differs.
struct Failed {
  index: u64,
  input: Input,
  what: String,
}

#[derive(Default)]
struct Totals {
  accepted: AtomicU64,
  calls: AtomicU64,
  failed: AtomicU64,
  changes: Mutex<Changes>,
}

/// Compares generated inputs as they are.
pub fn compare(out: &mut impl Write, plan: &Plan) -> io::Result<bool> {
  in_parallel(out, "compare", plan, &|input, lent, totals| {
    one(input, lent, totals)
  })
}

/// Compares each input with each buffer at every length from 0 to enough, the
/// others being ample.
pub fn lengths(out: &mut impl Write, plan: &Plan) -> io::Result<bool> {
  in_parallel(out, "lengths", plan, &|input, lent, totals| {
    let words = input.words.len();
    let enough = match guarded(|| Ok(run::answer(&ample(input))))? {
      Answer::Refused(_) => [0, 0, 0, words],
      Answer::Accepted(made) => {
        let [records, notes, entries] = made.counts();
        [5 * records, 4 * notes, 4 * entries, words]
      }
    };
    for (buffer, enough) in enough.into_iter().enumerate() {
      for length in 0..=enough {
        let mut short = ample(input);
        let all =
          [&mut short.list, &mut short.notes, &mut short.book, &mut short.work];
        *all.into_iter().nth(buffer).unwrap() = length;
        one(&short, lent, totals).map_err(|what| {
          input.clone_from(&short);
          what
        })?;
      }
    }
    Ok(())
  })
}

/// Compares given inputs: the differences, one a line, and how many.
pub fn recheck(
  out: &mut impl Write,
  inputs: impl Iterator<Item = io::Result<Input>>,
) -> io::Result<bool> {
  library::needed()?;
  let totals = Totals::default();
  let mut lent = Lent::default();
  let (mut all, mut failed) = (0, 0);
  for (index, input) in inputs.enumerate() {
    all += 1;
    if let Err(what) = one(&input?, &mut lent, &totals) {
      failed += 1;
      writeln!(out, "input {index}: {what}")?;
    }
  }
  let changes = totals.changes.into_inner().unwrap();
  writeln!(
    out,
    "recheck: {all} inputs, {failed} with differences but the declared ones: {changes}"
  )?;
  out.flush()?;
  Ok(failed == 0)
}

/// The same sheet and text with lengths that always suffice.
pub fn ample(input: &Input) -> Input {
  let words = input.words.len();
  Input {
    list: 7 * words,
    notes: 8 * words,
    book: 4 * words,
    work: words,
    ..input.clone()
  }
}

type Compare<'a> =
  &'a (dyn Fn(&mut Input, &mut Lent, &Totals) -> Result<(), String> + Sync);

fn in_parallel(
  out: &mut impl Write,
  what: &str,
  plan: &Plan,
  compare: Compare,
) -> io::Result<bool> {
  library::needed()?;
  let Plan { seed, count, sort, small, jobs, .. } = *plan;
  let totals = Totals::default();
  let smallest: Mutex<Option<Failed>> = Mutex::new(None);
  jobs::each(what, count, jobs, Lent::default, |lent, index| {
    let mut input = generate::generate(seed, index, sort, small);
    if let Err(what) = compare(&mut input, lent, &totals) {
      totals.failed.fetch_add(1, Ordering::Relaxed);
      keep_smallest(&smallest, Failed { index, input, what });
    }
  });
  let number = |n: &AtomicU64| n.load(Ordering::Relaxed);
  let failed = number(&totals.failed);
  writeln!(
    out,
    "{what}: seed {seed}, {count} inputs, {} calls, {} accepted, {failed} inputs with differences but the declared ones: {}",
    number(&totals.calls),
    number(&totals.accepted),
    totals.changes.into_inner().unwrap()
  )?;
  if let Some(Failed { index, input, what }) = smallest.into_inner().unwrap() {
    replay::write_input(&mut fs::File::create(plan.out)?, &input)?;
    writeln!(out, "the smallest is input {index}, in {}: {what}", plan.out)?;
  }
  out.flush()?;
  Ok(failed == 0)
}

fn keep_smallest(smallest: &Mutex<Option<Failed>>, failed: Failed) {
  let mut smallest = smallest.lock().unwrap();
  let size = |f: &Failed| (f.input.words.len(), f.input.units.len(), f.index);
  if smallest.as_ref().is_none_or(|old| size(&failed) < size(old)) {
    *smallest = Some(failed);
  }
}

/// One call of each.
fn one(input: &Input, lent: &mut Lent, totals: &Totals) -> Result<(), String> {
  totals.calls.fetch_add(1, Ordering::Relaxed);
  let answer = guarded(|| Ok(run::answer(input)))?;
  lent.lend(input);
  library::compile(&input.words, &input.units, lent);
  let none = Wanted::default();
  match answer {
    Answer::Refused(refusal) => {
      let answer = [refusal.number, refusal.place as u32, 0, 0, 0];
      same(lent, answer, &none)
    }
    Answer::Accepted(made) => {
      totals.accepted.fetch_add(1, Ordering::Relaxed);
      totals.changes.lock().unwrap().add(made.changes);
      let [records, notes, entries] = made.counts().map(|n| n as u32);
      same(lent, [0, 0, records, notes, entries], &Wanted::new(&made))
    }
  }
}

#[derive(Default)]
struct Wanted {
  list: Vec<u32>,
  notes: Vec<u32>,
  book: Vec<u32>,
}

impl Wanted {
  fn new(made: &Compiled) -> Self {
    let [list, notes, book] = words(made);
    Self { list, notes, book }
  }
}

/// The words of list, notes and book, without the zeros behind.
pub fn words(made: &Compiled) -> [Vec<u32>; 3] {
  let Compiled { recorder, notes, .. } = made;
  let (records, entries) = (&recorder.records, &recorder.entries);
  [
    records.iter().flat_map(|record| record.words()).collect(),
    notes.iter().flat_map(|note| note.words()).collect(),
    entries.iter().flat_map(|entry| entry.words()).collect(),
  ]
}

/// The bounds that the programs lend by, of records, notes and entries.
pub fn bounds(words: usize, counts: [usize; 3]) -> Result<(), String> {
  let [records, notes, entries] = counts;
  if 3 * records > 4 * words || notes > 2 * words || entries > words {
    return Err(format!("{words} words make {counts:?}: above the bounds"));
  }
  Ok(())
}

fn same(lent: &Lent, answer: [u32; 5], wanted: &Wanted) -> Result<(), String> {
  if lent.answer != answer {
    return Err(format!("answer {:?}, the Rust {answer:?}", lent.answer));
  }
  same_words("list", &lent.list, &wanted.list)?;
  same_words("notes", &lent.notes, &wanted.notes)?;
  same_words("book", &lent.book, &wanted.book)?;
  same_words("work", &lent.work, &[])
}

/// The wanted words, then zeros.
fn same_words(what: &str, got: &[u32], wanted: &[u32]) -> Result<(), String> {
  let wanted = wanted.iter().copied().chain(std::iter::repeat(0));
  match got.iter().zip(wanted).position(|(got, wanted)| *got != wanted) {
    None => Ok(()),
    Some(at) => Err(format!("{what} differs at word {at}: {}", got[at])),
  }
}

/// A test of the comparison itself: it takes what the Rust says and refuses
/// that with any one word changed.
pub fn tells_changes() -> Result<String, String> {
  let mut changes = 0;
  for index in 0..40 {
    let input = ample(&generate::generate(91, index, Sort::Valid, true));
    let made = run::compile(&input.words, &input.units);
    let [records, notes, entries] = made.counts().map(|n| n as u32);
    let answer = [0, 0, records, notes, entries];
    let wanted = Wanted::new(&made);
    let mut lent = Lent::default();
    lent.lend(&input);
    lent.answer = answer;
    lent.list.fill(0);
    lent.list[..wanted.list.len()].copy_from_slice(&wanted.list);
    lent.notes.fill(0);
    lent.notes[..wanted.notes.len()].copy_from_slice(&wanted.notes);
    lent.book.fill(0);
    lent.book[..wanted.book.len()].copy_from_slice(&wanted.book);
    lent.work.fill(0);
    same(&lent, answer, &wanted)?;
    for part in 0..5 {
      for at in 0.. {
        let Lent { answer: a, list, notes, book, work } = &mut lent;
        let words = [&mut a[..], list, notes, book, work];
        let Some(word) = words.into_iter().nth(part).unwrap().get_mut(at)
        else {
          break;
        };
        *word ^= 1;
        if same(&lent, answer, &wanted).is_ok() {
          return Err(format!("a change of word {at} of {part} is not told"));
        }
        let Lent { answer: a, list, notes, book, work } = &mut lent;
        let words = [&mut a[..], list, notes, book, work];
        words.into_iter().nth(part).unwrap()[at] ^= 1;
        changes += 1;
      }
    }
  }
  Ok(format!(", {changes} changes"))
}
