//! How much stack calls take.

use std::hint::black_box;
use std::ptr::{read_volatile, write_volatile};
use std::thread;

/// What an untouched word of the stack holds.
const PAINT: u64 = 0xA5C3_96E1_5AD2_784B;
/// Next to the painter's own frame nothing is painted, nor at the far end of the stack.
const NEAR: usize = 8 << 10;
const FAR: usize = 64 << 10;

fn paint(from: usize, to: usize) {
    for at in (from..to).step_by(8) {
        // SAFETY: words of this thread's own stack, below all frames that are in use and above its far end.
        unsafe { write_volatile(at as *mut u64, PAINT) }
    }
}

/// The lowest word that has been touched, and the end if none has been.
fn touched(from: usize, to: usize) -> usize {
    // SAFETY: as in `paint`.
    (from..to).step_by(8).find(|&at| unsafe { read_volatile(at as *const u64) } != PAINT).unwrap_or(to)
}

/// The bytes of stack that the work takes on each item, in turn, in one thread that has so many; at least 8 KiB.
pub fn taken<T: Sync>(size: usize, items: &[T], work: impl Fn(&T) + Sync) -> Vec<usize> {
    let measure = || {
        let local = 0u64;
        let here = black_box(&raw const local) as usize & !7;
        let (low, high) = (here + FAR - size, here - NEAR);
        paint(low, high);
        let one = |item: &T| {
            work(item);
            let lowest = touched(low, high);
            paint(lowest, high);
            here - lowest
        };
        items.iter().map(one).collect()
    };
    in_stack(size, measure)
}

/// Does the work in a thread that has so many bytes of stack.
pub fn in_stack<R: Send>(size: usize, work: impl FnOnce() -> R + Send) -> R {
    thread::scope(|scope| {
        let thread = thread::Builder::new().stack_size(size).spawn_scoped(scope, work);
        thread.expect("a thread can be started").join().expect("no panic")
    })
}
