//! A limit on the work that one node may take. A node that goes past it ends
//! in a panic that the driver catches; it is then not judged.

use std::cell::Cell;
use std::panic::{self, AssertUnwindSafe};

/// The sentence of the parity step, in place of the given one.
pub const PARITY: &str = "the low bits differ";

/// Terms copied while products are formed.
const MOST: usize = 400_000;

thread_local! {
    static LEFT: Cell<usize> = const { Cell::new(MOST) };
}

struct Spent;

pub fn spend(amount: usize) {
    let left = LEFT.get();
    if amount > left {
        panic::panic_any(Spent);
    }
    LEFT.set(left - amount);
}

/// What `work` gives, or nothing if it took too much.
pub fn limited<T>(work: impl FnOnce() -> T) -> Option<T> {
    LEFT.set(MOST);
    match panic::catch_unwind(AssertUnwindSafe(work)) {
        Ok(answer) => Some(answer),
        Err(cause) if cause.is::<Spent>() => None,
        Err(cause) => panic::resume_unwind(cause),
    }
}

/// Keeps the panics of this module quiet.
pub fn hush() {
    let usual = panic::take_hook();
    panic::set_hook(Box::new(move |info| {
        if !info.payload().is::<Spent>() {
            usual(info);
        }
    }));
}
