//! A limit on the work of one input, a session or a script. The Rust walks trees, so a few shared nodes can cost
//! it hours; such an input is given up and not compared.

use std::cell::Cell;

const MOST_STEPS: u64 = 3_000_000;

thread_local! {
    static STEPS: Cell<u64> = const { Cell::new(0) };
}

/// What an input that is given up panics with.
pub struct TooLarge;

/// Starts the count for a new input.
pub fn start() {
    STEPS.set(0);
}

/// Counts one visit to an operation, and gives the input up when there are too many.
pub fn step() {
    let steps = STEPS.get() + 1;
    STEPS.set(steps);
    if steps > MOST_STEPS {
        std::panic::panic_any(TooLarge);
    }
}
