//! What document 02's points make of what the Rust says. Each is applied by a
//! rule that is the oracle's own, and counted where it changes anything: these
//! are the declared differences of docs/DIFFERENCES.md, all else is equal.

use crate::recorder::{self, Recorder};
use crate::run::{Compiled, Note};
use crate::sheet;
use std::fmt::{self, Display, Formatter};

/// How often a point changed what the Rust says.
#[derive(Clone, Copy, Default, PartialEq, Eq, Debug)]
pub struct Changes {
  /// Ends of delays that are not what they are rounded up to.
  pub delay_ends: u64,
  /// Notes that say how many units of a name are left out.
  pub lost_units: u64,
}

impl Changes {
  pub fn add(&mut self, other: Self) {
    self.delay_ends += other.delay_ends;
    self.lost_units += other.lost_units;
  }
}

impl Display for Changes {
  fn fmt(&self, f: &mut Formatter) -> fmt::Result {
    let Self { delay_ends, lost_units } = self;
    write!(
      f,
      "{delay_ends} ends of delays not rounded up, {lost_units} notes with units left out"
    )
  }
}

/// The Rust's result for a sheet and its text, changed by every point.
pub fn apply(made: &mut Compiled, words: &[u32], units: &[u16]) {
  made.changes.delay_ends += round_delays(&mut made.recorder);
  made.changes.lost_units += count_lost(&mut made.notes, words, units);
}

/// "rounds delay counts to the nearest whole step, an exact half going up":
/// the end as it stood takes the place of what the Rust made of it.
fn round_delays(recorder: &mut Recorder) -> u64 {
  let mut changed = 0;
  for &(at, [e, m]) in &recorder.delay_ends {
    let [a, b, _] = &mut recorder.records[at].args;
    assert_eq!((*a, *b), recorder::round_up(e, m), "the ceiling of an end");
    let nearest = nearest(e, m);
    changed += u64::from((*a, *b) != nearest);
    (*a, *b) = nearest;
  }
  changed
}

/// The whole number nearest to m × 2^(e−160), by the halves that are in it.
pub fn nearest(e: u32, m: u32) -> (u32, u32) {
  if e >= 160 {
    return (e, m);
  }
  let halves = u64::from(m).checked_shr(159 - e).unwrap_or(0);
  let whole = halves.div_ceil(2);
  if whole == 0 {
    return (0, 0);
  }
  // At most 2^31.
  let up = whole.leading_zeros() - 32;
  (160 - up, (whole << up) as u32)
}

/// "the number of units left out, from the first blank up to a sigil or the
/// end", in the last word of each note of class 10; "All other notes keep 0".
fn count_lost(notes: &mut [Note], words: &[u32], units: &[u16]) -> u64 {
  let prog = sheet::decode(words).expect("the form took the sheet");
  let mut bases = vec![0];
  for line in &prog.lines {
    bases.push(bases[bases.len() - 1] + line.content.source_len);
  }
  let mut changed = 0;
  for note in notes.iter_mut().filter(|note| note.class == 10) {
    let base = bases[note.line];
    note.lost = left_out(&units[base + note.start..base + note.end]);
    assert_ne!(note.lost, 0, "a note of class 10 on a whole name");
    changed += 1;
  }
  changed
}

/// The units of a name from its first blank up to a sigil or the end.
pub fn left_out(name: &[u16]) -> u32 {
  let from_blank = name.iter().skip_while(|&&unit| unit != BLANK);
  from_blank.take_while(|unit| !SIGILS.contains(unit)).count() as u32
}

const BLANK: u16 = b' ' as u16;

const SIGILS: [u16; 2] = [b'$' as u16, b'%' as u16];
