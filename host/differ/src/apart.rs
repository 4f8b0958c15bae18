//! Work in a process of its own, so that a crash is an answer.

use std::io::Write;
use std::panic::{catch_unwind, AssertUnwindSafe};

extern "C" {
    fn fork() -> i32;
    fn waitpid(process: i32, status: *mut i32, options: i32) -> i32;
    fn _exit(code: i32) -> !;
    fn alarm(seconds: u32) -> u32;
}

#[derive(Clone, Copy, Debug, PartialEq, Eq)]
pub enum End {
    Code(i32),
    Signal(i32),
}

/// The code that the work gives, or the signal that ended it.
pub fn apart(work: impl FnOnce() -> i32) -> End {
    // With the lock of standard output in hand, or another thread could have it in the child for ever.
    let mut output = std::io::stdout().lock();
    output.flush().expect("standard output");
    let process = unsafe { fork() };
    assert!(process >= 0, "fork");
    if process == 0 {
        let code = catch_unwind(AssertUnwindSafe(work)).unwrap_or(101);
        let _ = output.flush();
        unsafe { _exit(code) }
    }
    drop(output);
    let mut status = 0;
    let ended = unsafe { waitpid(process, &mut status, 0) };
    assert_eq!(ended, process, "waitpid");
    match status & 127 {
        0 => End::Code(status >> 8 & 255),
        signal => End::Signal(signal),
    }
}

/// Ends this process by a signal unless it is called again in time.
pub fn within(seconds: u32) {
    unsafe { alarm(seconds) };
}
