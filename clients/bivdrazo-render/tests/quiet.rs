//! Caught panics. The hook for panics belongs to the whole process: this one has no other tests.

#[path = "../src/quiet.rs"]
mod quiet;

use quiet::quietly;
use std::panic;
use std::sync::atomic::{AtomicUsize, Ordering};
use std::thread;

static COUNT: AtomicUsize = AtomicUsize::new(0);

/// The name of the thread whose panics the hook of the program counts.
const NAME: &str = "counted";

/// The program's hook is called for each panic, but not for one that is caught quietly; this thread
/// is distinguished from those of other tests.
#[test]
fn panics() {
    let before = panic::take_hook();
    panic::set_hook(Box::new(move |panic| match thread::current().name() {
        Some(NAME) => {
            COUNT.fetch_add(1, Ordering::SeqCst);
        }
        _ => before(panic),
    }));
    let work = || {
        assert_eq!(quietly(|| 1), Some(1));
        assert_eq!(quietly(|| quietly(|| panic!("a"))), Some(None::<()>));
        let again = || quietly(|| panic!("b")).unwrap_or_else(|| panic!("c"));
        assert_eq!(quietly(again), None::<()>);
        assert_eq!(COUNT.load(Ordering::SeqCst), 0);
        panic!("d");
    };
    let thread = thread::Builder::new().name(NAME.to_string()).spawn(work);
    let ended = thread.unwrap().join();
    assert_eq!(ended.unwrap_err().downcast_ref(), Some(&"d"));
    assert_eq!(COUNT.load(Ordering::SeqCst), 1);
}
