//! What is counted over generated trees and texts, and what fails of them.

use crate::compare::Plan;
use crate::generate::Sort;
use crate::jobs;
use crate::parts::Kinds;
use crate::selftest::guarded;
use std::io::{self, Write};

/// So many failures are shown.
const SHOWN: usize = 5;

#[derive(Default)]
pub struct Tally {
  pub trees: u64,
  /// Trees of which a text says all.
  pub as_they_were: u64,
  /// Trees that a part is missing of.
  pub missing: u64,
  pub texts: u64,
  /// Texts without an error.
  pub accepted: u64,
  /// Texts that are printed with a line too long to be read.
  pub too_long: u64,
  /// Texts whose tree is refused as a sheet for its size, depth or FSEEK.
  pub beyond: u64,
  pub kinds: Kinds,
  pub failed: u64,
  failures: Vec<String>,
}

impl Tally {
  fn add(&mut self, other: Self) {
    self.trees += other.trees;
    self.as_they_were += other.as_they_were;
    self.missing += other.missing;
    self.texts += other.texts;
    self.accepted += other.accepted;
    self.too_long += other.too_long;
    self.beyond += other.beyond;
    self.kinds.add(&other.kinds);
    self.failed += other.failed;
    self.failures.extend(other.failures);
  }

  fn fail(&mut self, failure: String) {
    self.failed += 1;
    if self.failures.len() < SHOWN {
      self.failures.push(failure);
    }
  }

  pub fn write_failures(&self, out: &mut impl Write) -> io::Result<()> {
    for failure in self.failures.iter().take(SHOWN) {
      writeln!(out, "{failure}")?;
    }
    Ok(())
  }
}

/// Works on the numbers of a plan; `thing` is what a number stands for.
pub fn run(
  plan: &Plan,
  command: &str,
  thing: &str,
  work: impl Fn(&mut Tally, u64) -> Result<(), String> + Sync,
) -> Tally {
  let Plan { seed, count, jobs, .. } = *plan;
  let each = |tally: &mut Tally, index| {
    if let Err(error) = guarded(|| work(tally, index)) {
      tally.fail(format!("seed {seed}, {thing} {index}: {error}\n"));
    }
  };
  let mut all = Tally::default();
  for tally in jobs::each(command, count, jobs, Tally::default, each) {
    all.add(tally);
  }
  all
}

/// A small fixed run, for the tests: nothing fails, and all kinds are reached
/// but the given ones.
pub fn fixed(
  seed: u64,
  count: u64,
  run: fn(&Plan) -> Tally,
  unreached: &[&str],
) -> Result<Tally, String> {
  let plan =
    Plan { seed, count, sort: Sort::Valid, small: false, jobs: 1, out: "" };
  let tally = run(&plan);
  if let Some(failure) = tally.failures.into_iter().next() {
    return Err(failure);
  }
  let unseen = tally.kinds.unseen();
  if unseen != unreached {
    return Err(format!("{unseen:?} are not reached"));
  }
  Ok(Tally { failures: vec![], ..tally })
}
