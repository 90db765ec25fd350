//! Room to recurse. A book can nest 4,095 cells, so trees are walked and dropped on a stack of their own.

use crate::faults;
use std::cell::Cell;
use std::thread;

/// Far above what the deepest book needs; only the pages that are touched are ever taken.
const STACK: usize = 512 << 20;

thread_local! {
    static LARGE: Cell<bool> = const { Cell::new(false) };
}

/// Does `work` on a large stack: on this thread's own if it has one, else on that of a new thread. Panics are handed on.
pub fn on_large_stack<R: Send>(work: impl FnOnce() -> R + Send) -> R {
    if LARGE.get() {
        return work();
    }
    let fault = faults::current();
    thread::scope(|scope| {
        let worker = thread::Builder::new().stack_size(STACK).spawn_scoped(scope, || {
            LARGE.set(true);
            faults::with_fault(fault, work)
        });
        match worker.expect("a thread can be started").join() {
            Ok(result) => result,
            Err(panic) => std::panic::resume_unwind(panic),
        }
    })
}
