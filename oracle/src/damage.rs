//! Damaged copies: a word or a unit changed, dropped, added or swapped, so
//! that each refusal is reached at many places.

use crate::generate::places_of;
use crate::rng::Rng;
use crate::run::Input;
use crate::sheet::{self, kind, payload, word};

const KINDS: [u32; 15] = [
  0x01, 0x02, 0x03, 0x04, 0x05, 0x06, 0x07, 0x08, 0x09, 0x0a, 0x0b, 0x0f, 0x10,
  0x20, 0x21,
];

/// Damages one to three places; a small sheet stays small.
pub fn damage(rng: &mut Rng, input: &mut Input, small: bool) {
  let times = *rng.pick(&[1, 1, 1, 1, 2, 3]);
  for _ in 0..times {
    if rng.chance(75) {
      damage_words(rng, &mut input.words, small);
    } else {
      damage_units(rng, &mut input.units);
    }
  }
}

fn damage_words(rng: &mut Rng, words: &mut Vec<u32>, small: bool) {
  if words.is_empty() {
    words.push(any_word(rng));
    return;
  }
  let at = rng.below(words.len());
  match rng.below(18) {
    0 => words[at] = any_word(rng),
    1 => {
      words.remove(at);
    }
    2 => words.insert(at, any_word(rng)),
    3 => {
      let other = rng.below(words.len());
      words.swap(at, other);
    }
    4 if at > 0 => words.swap(at, at - 1),
    5 => words.truncate(at),
    6 => words.push(any_word(rng)),
    7 => words[at] = word(*rng.pick(&KINDS), payload(words[at])),
    8 => words[at] ^= 1 << rng.below(32),
    9 => words.insert(at, words[at]),
    // A word of a certain kind, changed to a near payload.
    10..14 => {
      let wanted = *rng.pick(&KINDS);
      let places = places_of(words, wanted);
      if !places.is_empty() {
        let at = *rng.pick(&places);
        words[at] = near_word(rng, words[at]);
      }
    }
    14 => {
      // A statement becomes FSEEK.
      let places = places_of(words, sheet::STMT);
      if !places.is_empty() {
        words[*rng.pick(&places)] = word(sheet::STMT, 69);
      }
    }
    15 if !small => {
      // An expression below so many unary ones: near depth 64 or well below.
      let places = places_of(words, sheet::EXPR);
      if !places.is_empty() {
        let at = *rng.pick(&places);
        let around = if rng.chance(70) { rng.between(58, 64) } else { 1 };
        for _ in 0..around {
          let range = word(sheet::RANGE, 0);
          let unary =
            [word(sheet::EXPR, 6), range, range, word(sheet::PLACE, 1)];
          words.splice(at..at, unary);
        }
      }
    }
    _ => words[at] = near_word(rng, words[at]),
  }
}

/// A word of the same kind with a payload near by or at an edge.
fn near_word(rng: &mut Rng, old: u32) -> u32 {
  let was = payload(old);
  let now = match kind(old) {
    sheet::RANGE => {
      let (start, end) = (was / 4096, was % 4096);
      let (start, end) = match rng.below(8) {
        0 => (start + 1, end),
        1 => (start, end + 1),
        2 => (end, start),
        3 => (start, start),
        4 => (end, end),
        5 => (start, end.saturating_sub(1)),
        6 => (start.saturating_sub(1), end),
        _ => (rng.below(4096) as u32, rng.below(4096) as u32),
      };
      start * 4096 + end
    }
    sheet::STMT => *rng.pick(&[71, 72, 69, 73, rng_case(was)]),
    sheet::EXPR => *rng.pick(&[0, 1, 2, 3, 4, 5, 6, 7, 8, 9, 10]),
    sheet::LABEL => *rng.pick(&[0, 65535, 65536, was + 1]),
    sheet::EXPONENT => *rng.pick(&[0, 1, 255, 256, 257]),
    sheet::MANTISSA => *rng.pick(&[0, 1, 0x7fff, 0x8000, 0xffff, 0x10000]),
    sheet::PLACE => *rng.pick(&[0, 2, 3, 12, 13, 33, 34]),
    sheet::LINE => match rng.below(5) {
      0 => 4095,
      1 => 4096,
      2 => was.saturating_sub(1),
      _ => was + 1,
    },
    _ => match rng.below(4) {
      0 => 0,
      1 => was + 1,
      2 => was.saturating_sub(1),
      _ => rng.below(8) as u32,
    },
  };
  word(kind(old), now & 0xff_ffff)
}

/// Another word, near or far.
pub fn changed_word(rng: &mut Rng, old: u32) -> u32 {
  if rng.chance(70) { near_word(rng, old) } else { any_word(rng) }
}

fn rng_case(case: u32) -> u32 {
  (case + 7) % 72
}

fn any_word(rng: &mut Rng) -> u32 {
  match rng.below(4) {
    0 => rng.next() as u32,
    1 => word(*rng.pick(&KINDS), 0),
    2 => word(*rng.pick(&KINDS), rng.below(80) as u32),
    _ => word(sheet::RANGE, (rng.below(20) * 4096 + rng.below(40)) as u32),
  }
}

fn damage_units(rng: &mut Rng, units: &mut Vec<u16>) {
  if units.is_empty() || rng.chance(15) {
    for _ in 0..rng.between(1, 3) {
      units.push(b'A' as u16);
    }
    return;
  }
  let at = rng.below(units.len());
  match rng.below(10) {
    0 => units[at] = *rng.pick(&[0xd800, 0xdbff, 0xdc00, 0xdfff]),
    1 => units[at] = *rng.pick(&[0xd7ff, 0xe000]),
    2 => units.truncate(at),
    3 => {
      units.pop();
    }
    4 => {
      units.remove(at);
    }
    5 => units.insert(at, b'"' as u16),
    6 => units.push(0xd800),
    7 => units[at] = *rng.pick(&[0x80, 0xa0, 0xff21, 0x130, 0x3000, 0]),
    _ => {
      let marks = b" \"%$A1a,#.";
      units[at] = *rng.pick(marks) as u16;
    }
  }
}
