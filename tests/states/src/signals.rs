//! A call that does not come back: it touched memory that is not its own, gave up, or goes on without end. The process
//! cannot go on then, but it can say where it was, and close with the usual line.

use std::sync::atomic::{AtomicUsize, Ordering::Relaxed};

/// What is being tested: a kind of test, and its place among them.
pub const STATE: usize = 0;
pub const LIST: usize = 1;
pub const SIZES: usize = 2;
pub const KINDS: [&str; 3] = ["state", "list", "sizes"];

static KIND: AtomicUsize = AtomicUsize::new(0);
static PLACE: AtomicUsize = AtomicUsize::new(0);
static PASSED: AtomicUsize = AtomicUsize::new(0);
static FAILED: AtomicUsize = AtomicUsize::new(0);

/// One test takes milliseconds.
const SECONDS: u32 = 60;

/// Not allowed (4), given up (6), beyond memory (7), divided by 0 (8), touched a page (11), out of time (14).
const SIGNALS: [i32; 6] = [4, 6, 7, 8, 11, 14];

pub fn watch() {
    for number in SIGNALS {
        // Safe: from here on the handler is all that runs on these signals.
        unsafe { signal(number, stopped) };
    }
}

/// A test begins, after so many that passed and failed.
pub fn begin(kind: usize, place: usize, passed: usize, failed: usize) {
    KIND.store(kind, Relaxed);
    PLACE.store(place, Relaxed);
    PASSED.store(passed, Relaxed);
    FAILED.store(failed, Relaxed);
    // Safe: numbers alone.
    unsafe { alarm(SECONDS) };
}

/// Comes while the library runs, so that nothing here holds standard output.
extern "C" fn stopped(number: i32) {
    let why = match number {
        11 => "touched memory outside its arrays",
        14 => "did not come back",
        _ => "gave up",
    };
    println!("{} {}: the library {why} (signal {number})", KINDS[KIND.load(Relaxed)], PLACE.load(Relaxed));
    println!("{} passed, {} failed", PASSED.load(Relaxed), FAILED.load(Relaxed) + 1);
    // Safe: ends the process.
    unsafe { _exit(1) }
}

extern "C" {
    fn signal(number: i32, handler: extern "C" fn(i32)) -> usize;
    fn alarm(seconds: u32) -> u32;
    fn _exit(status: i32) -> !;
}
