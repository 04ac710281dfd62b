//! The two functions that fuzzing/libfuzzer.c calls.

use crate::fresh::fresh;
use crate::input::case;
use compare::{Comparer, Random};
use std::any::Any;
use std::cell::RefCell;
use std::hash::{DefaultHasher, Hash, Hasher};
use std::panic::{catch_unwind, AssertUnwindSafe};
use std::path::Path;
use std::{env, fs, process, slice};

/// The environment variable that names the folder where reports are kept.
const FOUND: &str = "FUZZ_FOUND";

thread_local! {
    static COMPARER: RefCell<Comparer> = RefCell::new(Comparer::of_headreader());
}

/// Compares what a row of bytes stands for; on a difference, keeps the report and aborts, so that
/// libFuzzer keeps the row.
///
/// # Safety
///
/// `start` must be a pointer to `length` bytes.
#[no_mangle]
pub unsafe extern "C" fn fuzz_compare(start: *const u8, length: usize) {
    // SAFETY: the caller's promise.
    let row = unsafe { slice::from_raw_parts(start, length) };
    let Some(case) = case(row) else {
        return;
    };
    let compare = || COMPARER.with_borrow_mut(|comparer| comparer.compare(&case));
    if let Some(report) = difference(compare) {
        keep(&report);
        process::abort();
    }
}

/// What a comparison says of the difference that it gives up on, if there is one.
fn difference(compare: impl FnOnce()) -> Option<String> {
    let panic = catch_unwind(AssertUnwindSafe(compare)).err()?;
    Some(report(&*panic))
}

/// What the comparer said of the difference when it gave up.
fn report(panic: &dyn Any) -> String {
    match (panic.downcast_ref::<String>(), panic.downcast_ref::<&str>()) {
        (Some(text), _) => text.clone(),
        (_, Some(text)) => text.to_string(),
        _ => "a panic without words".to_string(),
    }
}

/// Writes a report to a file of its own, and where that fails to standard error; the same report
/// of two processes is one file.
fn keep(report: &str) {
    let mut hasher = DefaultHasher::new();
    report.hash(&mut hasher);
    let folder = env::var_os(FOUND).unwrap_or_default();
    let file = Path::new(&folder).join(format!("difference-{:016x}.txt", hasher.finish()));
    if let Err(error) = fs::write(&file, format!("{report}\n")) {
        eprintln!("{}: {error}\n{report}", file.display());
    }
}

/// Writes a call on a new head over the row at `start` and answers its length, or 0 if none fits.
///
/// # Safety
///
/// `start` must be a pointer to `room` bytes that may be written.
#[no_mangle]
pub unsafe extern "C" fn fuzz_fresh(start: *mut u8, room: usize, seed: u32) -> usize {
    let mut random = Random::new(u64::from(seed) + 1);
    let Some(row) = fresh(room, &mut random) else {
        return 0;
    };
    // SAFETY: the caller's promise, and the row is no longer than the room.
    unsafe { start.copy_from_nonoverlapping(row.as_ptr(), row.len()) };
    row.len()
}

#[cfg(test)]
mod tests {
    use super::*;

    #[test]
    fn a_difference_is_told_in_the_words_of_the_comparison() {
        assert_eq!(difference(|| ()), None);
        let told = difference(|| panic!("they differ"));
        assert_eq!(told.as_deref(), Some("they differ"));
        let told = difference(|| panic!("{} differ", 2));
        assert_eq!(told.as_deref(), Some("2 differ"));
    }
}
