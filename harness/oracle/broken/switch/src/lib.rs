//! Which fault of the broken copy is switched on, in this thread.
use std::cell::Cell;

#[path = "../../faults.rs"]
mod faults;

pub use faults::FAULTS;

thread_local! {
    static ON: Cell<Option<usize>> = const { Cell::new(None) };
}

/// Switches a fault on, and every other off.
pub fn set(number: usize) {
    ON.with(|on| on.set(Some(number)));
}

pub fn is_on(number: usize) -> bool {
    ON.with(|on| on.get()) == Some(number)
}
