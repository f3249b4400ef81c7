//! A thread with a stack of 64 KiB, for the tests of the crates that link a proved static library.
//! A call that needs more ends the whole test program.

use std::thread::Builder;

const STACK: usize = 64 * 1024;

/// What these calls give in such a thread.
pub fn on_small_stack<T: Send + 'static>(calls: impl FnOnce() -> T + Send + 'static) -> T {
    let thread = Builder::new().stack_size(STACK).spawn(calls).expect("the thread starts");
    thread.join().expect("the calls come back")
}
