//! The value that the oracle puts into the source's window: a u32 that logs
//! its own drop.
//!
//! The log is the reference for the return list: it holds what one call
//! dropped, in the order of the drops.

use std::cell::RefCell;

thread_local! {
    static DROPPED: RefCell<Vec<u32>> = const { RefCell::new(Vec::new()) };
}

#[derive(Debug)]
pub struct Value(u32);

impl Value {
    pub fn new(number: u32) -> Self {
        Self(number)
    }

    pub fn number(&self) -> u32 {
        self.0
    }

    /// The number of a value that a call handed back. It went to the caller,
    /// so it is no drop.
    pub fn into_number(self) -> u32 {
        let number = self.0;
        std::mem::forget(self);
        number
    }
}

impl Drop for Value {
    fn drop(&mut self) {
        log_drop(self.0);
    }
}

/// Never inlined: a copy at every place that drops a value, 63 times over,
/// made the build slow.
#[inline(never)]
fn log_drop(number: u32) {
    DROPPED.with(|log| log.borrow_mut().push(number));
}

/// Hand out the log and leave it empty.
pub fn take_dropped() -> Vec<u32> {
    DROPPED.with(RefCell::take)
}
