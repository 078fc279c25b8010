//! Runs what may panic without a word on standard error.

use std::panic::{catch_unwind, set_hook, take_hook, AssertUnwindSafe};
use std::sync::atomic::{AtomicBool, Ordering};

static QUIET: AtomicBool = AtomicBool::new(false);

/// Lets panics speak unless they are caught by `caught`.
pub fn install() {
    let speak = take_hook();
    set_hook(Box::new(move |info| {
        if !QUIET.load(Ordering::Relaxed) {
            speak(info);
        }
    }));
}

/// The value, or none if it panicked.
pub fn caught<T>(run: impl FnOnce() -> T) -> Option<T> {
    QUIET.store(true, Ordering::Relaxed);
    let value = catch_unwind(AssertUnwindSafe(run)).ok();
    QUIET.store(false, Ordering::Relaxed);
    value
}
