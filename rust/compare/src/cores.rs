//! Splits work over the cores of the machine.

use crate::Tally;
use std::num::NonZero;
use std::panic::{catch_unwind, resume_unwind, AssertUnwindSafe};
use std::sync::atomic::{AtomicUsize, Ordering};
use std::thread;

/// Does every job, and adds up what each has counted.
pub fn on_all_cores<Job: Sync>(jobs: &[Job], work: impl Fn(&Job) -> Tally + Sync) -> Tally {
    let next = AtomicUsize::new(0);
    let take_jobs = || {
        let mut sum = Tally::default();
        while let Some(job) = jobs.get(next.fetch_add(1, Ordering::Relaxed)) {
            sum += catch_unwind(AssertUnwindSafe(|| work(job))).unwrap_or_else(|panic| {
                // One difference is enough, so the other threads find no more jobs.
                next.store(jobs.len(), Ordering::Relaxed);
                resume_unwind(panic)
            });
        }
        sum
    };
    let cores = thread::available_parallelism().map_or(1, NonZero::get);
    let mut sum = Tally::default();
    thread::scope(|scope| {
        let threads: Vec<_> = (0..cores).map(|_| scope.spawn(take_jobs)).collect();
        for thread in threads {
            sum += thread.join().unwrap_or_else(|panic| resume_unwind(panic));
        }
    });
    sum
}
