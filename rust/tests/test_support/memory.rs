//! An allocator that refuses the requests that a test names.
use dolzhytik::fallible::{AllocError, Allocator};
use std::cell::Cell;

/// An allocator that counts requests, refuses those that a test selects, and passes the others to
/// an inner allocator. A test lends it: a `&Refusing<B>` is an allocator too, and is `Copy`.
pub struct Refusing<B: Allocator> {
    inner: B,
    requests: Cell<u64>,
    first: Cell<u64>,
    last: Cell<u64>,
}

impl<B: Allocator> Refusing<B> {
    /// It passes each request on to `inner`, until it is told what to refuse.
    pub fn new(inner: B) -> Refusing<B> {
        Refusing {
            inner,
            requests: Cell::new(0),
            first: Cell::new(0),
            last: Cell::new(0),
        }
    }

    /// Refuses the requests of these numbers from this call on, counted from 1.
    fn restart(&self, first: u64, last: u64) {
        self.requests.set(0);
        self.first.set(first);
        self.last.set(last);
    }

    /// Refuses only the request of number `nth` from this call on, counted from 1. At 0 it refuses
    /// none.
    pub fn refuse(&self, nth: u64) {
        self.restart(nth, nth);
    }

    /// Refuses every request from this call on.
    pub fn refuse_all(&self) {
        self.restart(1, u64::MAX);
    }

    /// Returns whether the first request to refuse is still to come.
    pub fn is_waiting(&self) -> bool {
        self.requests.get() < self.first.get()
    }

    /// Returns the number of requests since `new`, `refuse` or `refuse_all`, refused ones included.
    pub fn requests(&self) -> u64 {
        self.requests.get()
    }
}

impl<B: Allocator> Allocator for Refusing<B> {
    fn grant(&self, bytes: usize) -> Result<(), AllocError> {
        let number = self.requests.get().saturating_add(1);
        self.requests.set(number);
        if (self.first.get()..=self.last.get()).contains(&number) {
            return Err(AllocError);
        }
        self.inner.grant(bytes)
    }
}
