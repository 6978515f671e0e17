//! A line on stderr every two seconds.

use std::time::{Duration, Instant};

pub struct Progress {
  what: String,
  /// 0 if not known.
  all: u64,
  done: u64,
  last: Instant,
}

impl Progress {
  pub fn new(what: &str, all: u64) -> Self {
    Self { what: what.to_string(), all, done: 0, last: Instant::now() }
  }

  pub fn step(&mut self) {
    self.done += 1;
    if self.last.elapsed() < Duration::from_secs(2) {
      return;
    }
    self.last = Instant::now();
    if self.all == 0 {
      eprintln!("{}: {} done", self.what, self.done);
    } else {
      eprintln!("{}: {} of {}", self.what, self.done, self.all);
    }
  }
}
