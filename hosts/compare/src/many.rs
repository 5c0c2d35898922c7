//! Many cases on several threads. How many there are shows in nothing but the time.

use std::io::{self, Write};
use std::sync::atomic::{AtomicU64, Ordering};
use std::sync::Mutex;
use std::thread;
use std::time::{Duration, Instant};

use crate::check::Disagreement;
use crate::report::Reached;

/// How often progress is shown.
const PAUSE: Duration = Duration::from_secs(5);

/// As many threads as the machine has cores.
pub fn cores() -> usize {
    thread::available_parallelism().map_or(1, usize::from)
}

/// A comparison of the case with this number, which counts what it reached.
pub trait Compare: Fn(u64, &mut Reached) -> Result<(), Disagreement> + Sync {}

impl<F: Fn(u64, &mut Reached) -> Result<(), Disagreement> + Sync> Compare for F {}

/// What the threads share.
struct Work<C> {
    compare: C,
    /// The number of cases.
    cases: u64,
    /// The case that is handed out next: they go out in order, each once.
    next: AtomicU64,
    /// The lowest case known to disagree; without one, the number of cases.
    lowest: AtomicU64,
    /// That case and its disagreement.
    found: Mutex<Option<(u64, Disagreement)>>,
    began: Instant,
}

/// Compares cases 0 to `cases` - 1 on so many threads. Their counts are summed, from `none` on; or of
/// all cases that disagree the lowest is the answer.
pub fn compare_all(
    cases: u64,
    threads: usize,
    none: fn() -> Reached,
    compare: impl Compare,
) -> Result<Reached, (u64, Disagreement)> {
    let (next, lowest) = (AtomicU64::new(0), AtomicU64::new(cases));
    let found = Mutex::new(None);
    let work = Work { compare, cases, next, lowest, found, began: Instant::now() };
    let reached = thread::scope(|scope| {
        let other = |_| scope.spawn(|| work.share(none(), false));
        let others: Vec<_> = (1..threads).map(other).collect();
        let mut reached = work.share(none(), true);
        for other in others {
            reached.join(&other.join().expect("no thread panicked"));
        }
        reached
    });
    let found = work.found.into_inner().expect("no thread panicked");
    found.map_or(Ok(reached), Err)
}

impl<C: Compare> Work<C> {
    /// Compares case after case until none is left below the lowest that disagrees. All below it
    /// were handed out before it, and a case that was is finished: so no lower one is missed.
    fn share(&self, mut reached: Reached, shows_progress: bool) -> Reached {
        let mut shown = Instant::now();
        loop {
            let index = self.next.fetch_add(1, Ordering::Relaxed);
            if index >= self.lowest.load(Ordering::Acquire) {
                return reached;
            }
            if let Err(disagreement) = (self.compare)(index, &mut reached) {
                self.find(index, disagreement);
            }
            if shows_progress && shown.elapsed() > PAUSE {
                shown = Instant::now();
                self.show_progress(index + 1);
            }
        }
    }

    /// Notes a disagreement, unless that of a lower case is known.
    fn find(&self, index: u64, disagreement: Disagreement) {
        let mut found = self.found.lock().expect("no thread panicked");
        if index < self.lowest.fetch_min(index, Ordering::AcqRel) {
            *found = Some((index, disagreement));
        }
    }

    /// Nobody may be looking.
    fn show_progress(&self, done: u64) {
        let (cases, seconds) = (self.cases, self.began.elapsed().as_secs());
        let _ = writeln!(io::stderr(), "{done} of {cases} cases, {seconds} seconds");
    }
}
