//! Work on numbers from 0 on, on several threads, with a line on stderr every
//! two seconds.

use std::sync::atomic::{AtomicBool, AtomicU64, Ordering};
use std::thread;
use std::time::{Duration, Instant};

/// How many numbers a thread takes at a time.
const BATCH: u64 = 64;

/// The stack of a thread: what tests have.
const STACK: usize = 2 << 20;

/// The threads that the machine can run.
pub fn all_cores() -> usize {
  thread::available_parallelism().map_or(1, usize::from)
}

/// Works on each number below `count`; gives what each thread gathered.
pub fn each<G: Send>(
  what: &str,
  count: u64,
  jobs: usize,
  begin: impl Fn() -> G + Sync,
  work: impl Fn(&mut G, u64) + Sync,
) -> Vec<G> {
  let (next, done, over) =
    (AtomicU64::new(0), AtomicU64::new(0), AtomicBool::new(false));
  let job = || {
    let mut gathered = begin();
    loop {
      let first = next.fetch_add(BATCH, Ordering::Relaxed);
      if first >= count {
        return gathered;
      }
      for index in first..count.min(first + BATCH) {
        work(&mut gathered, index);
        done.fetch_add(1, Ordering::Relaxed);
      }
    }
  };
  thread::scope(|scope| {
    let worker = || {
      let builder = thread::Builder::new().stack_size(STACK);
      builder.spawn_scoped(scope, job).expect("a thread")
    };
    let workers: Vec<_> = (0..jobs).map(|_| worker()).collect();
    let (over, done) = (&over, &done);
    scope.spawn(move || {
      let mut last = Instant::now();
      while !over.load(Ordering::Relaxed) {
        thread::sleep(Duration::from_millis(50));
        if last.elapsed() >= Duration::from_secs(2) {
          last = Instant::now();
          eprintln!("{what}: {} of {count}", done.load(Ordering::Relaxed));
        }
      }
    });
    let gathered = workers.into_iter().map(|worker| worker.join().unwrap());
    let gathered = gathered.collect();
    over.store(true, Ordering::Relaxed);
    gathered
  })
}
