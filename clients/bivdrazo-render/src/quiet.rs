//! Work whose panic is caught and printed nowhere.

use std::cell::Cell;
use std::panic::{self, AssertUnwindSafe};
use std::sync::Once;
use std::thread;

thread_local! {
    /// Whether this thread does work whose panic is caught.
    static IS_QUIET: Cell<bool> = Cell::new(false);
}

static HOOK: Once = Once::new();

/// Returns the result of work, or nothing if it panics; then nothing is printed.
///
/// The first call sets a hook for panics, which calls the previous one for each panic outside of
/// such work. A hook that the program sets later is called for all panics.
pub fn quietly<T>(work: impl FnOnce() -> T) -> Option<T> {
    if !thread::panicking() {
        HOOK.call_once(set_hook);
    }
    let before = IS_QUIET.with(|it| it.replace(true));
    let done = panic::catch_unwind(AssertUnwindSafe(work));
    IS_QUIET.with(|it| it.set(before));
    done.ok()
}

fn set_hook() {
    let previous = panic::take_hook();
    panic::set_hook(Box::new(move |panic| {
        let is_quiet = IS_QUIET.try_with(Cell::get).unwrap_or(false);
        if !is_quiet {
            previous(panic);
        }
    }));
}
