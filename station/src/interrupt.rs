//! Ctrl-C: the first one asks the work to stop where it is, a second one ends the program at once.
use crate::error::Error;
use std::sync::atomic::{AtomicBool, Ordering};

static MET: AtomicBool = AtomicBool::new(false);

/// Whether Ctrl-C was met.
pub fn met() -> bool {
    MET.load(Ordering::Relaxed)
}

/// An error once Ctrl-C was met: for loops that have something to finish.
pub fn check() -> Result<(), Error> {
    if met() {
        Err(Error::Interrupted)
    } else {
        Ok(())
    }
}

/// Watches for Ctrl-C from now on.
#[cfg(unix)]
pub fn watch() {
    const SIGINT: i32 = 2;
    const DEFAULT: usize = 0;
    extern "C" {
        fn signal(number: i32, handler: usize) -> usize;
        fn siginterrupt(number: i32, flag: i32) -> i32;
    }
    extern "C" fn on_interrupt(number: i32) {
        MET.store(true, Ordering::Relaxed);
        // SAFETY: `signal` may be called from a handler.
        unsafe { signal(number, DEFAULT) };
    }
    // SAFETY: the handler only stores to an atomic and calls `signal`, both of which a handler may do. A waiting read
    // is broken off (siginterrupt), so that a silent standard input doesn't keep the program.
    unsafe {
        signal(SIGINT, on_interrupt as extern "C" fn(i32) as usize);
        siginterrupt(SIGINT, 1);
    }
}

/// Elsewhere Ctrl-C ends the program at once.
#[cfg(not(unix))]
pub fn watch() {}
