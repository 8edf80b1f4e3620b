//! Lists of bytes for which a failed allocation ends the program, as in the names at the root. No
//! call over one has a path for an error.
use crate::alloc::{AllocError, Allocator};
use crate::vec::{Sealed, Sink};
use alloc_crate::vec::Vec;
use core::ops::{Deref, DerefMut};

/// The allocator of the builders at the root.
#[derive(Clone, Copy, PartialEq, Eq, Debug)]
pub struct Root;

impl Allocator for Root {
    #[inline]
    fn grant(&self, _bytes: usize) -> Result<(), AllocError> {
        Ok(())
    }

    #[inline(always)]
    fn ends() -> bool {
        true
    }
}

/// The first two capacities of a list of bytes.
pub const FEW: usize = 16;
const MANY: usize = 128;

/// The largest capacity for which a new list is cheaper than growing the old one.
const MOVED: usize = 1024;

/// Reserves spare capacity for `more` bytes. The new capacity is at least twice the old one, and
/// [`MANY`] after [`FEW`]. A short list is a multiple of [`FEW`] bytes, which is a power of two.
#[cold]
#[inline(never)]
pub fn grow(old: &mut Vec<u8>, more: usize) {
    let count = old.len().saturating_add(more);
    let room = count.max(2 * old.capacity());
    if room > MOVED {
        return old.reserve(more);
    }
    let least = if old.capacity() < FEW { FEW } else { MANY };
    let mut new = Vec::with_capacity((room.max(least) + FEW - 1) & !(FEW - 1));
    // After this test the copy needs no path that grows the new list, which is then in registers.
    if new.capacity() < old.len() {
        full();
    }
    new.extend_from_slice(old);
    *old = new;
}

/// Appends a byte to a list without spare capacity.
#[cold]
#[inline(never)]
fn push_grown(list: &mut Vec<u8>, byte: u8) {
    grow(list, 1);
    list.push(byte);
}

/// Ends a call that needs spare capacity and has none. The proved calls reserve it first.
#[cold]
#[inline(never)]
fn full() -> ! {
    panic!("no spare capacity");
}

/// A borrowed `std` vector as a sink whose calls never fail.
pub struct Growing<'a>(pub &'a mut Vec<u8>);

impl Deref for Growing<'_> {
    type Target = [u8];

    #[inline]
    fn deref(&self) -> &[u8] {
        self.0
    }
}

impl DerefMut for Growing<'_> {
    #[inline]
    fn deref_mut(&mut self) -> &mut [u8] {
        self.0
    }
}

impl Sealed for Growing<'_> {}

impl Sink for Growing<'_> {
    #[inline]
    fn capacity(&self) -> usize {
        self.0.capacity()
    }

    #[inline]
    fn reserve(&mut self, more: usize) -> Result<(), AllocError> {
        if self.0.capacity() - self.0.len() < more {
            grow(self.0, more);
        }
        Ok(())
    }

    #[inline]
    fn push(&mut self, byte: u8) -> Result<(), AllocError> {
        if self.0.len() == self.0.capacity() {
            push_grown(self.0, byte);
        } else {
            self.0.push(byte);
        }
        Ok(())
    }

    #[inline]
    fn push_reserved(&mut self, byte: u8) {
        if self.0.len() == self.0.capacity() {
            full();
        }
        self.0.push(byte);
    }

    #[inline]
    fn push_both_reserved(&mut self, bytes: [u8; 2]) {
        if self.0.capacity() - self.0.len() < 2 {
            full();
        }
        self.0.extend_from_slice(&bytes);
    }

    #[inline]
    fn extend_from_slice(&mut self, bytes: &[u8]) -> Result<(), AllocError> {
        self.0.extend_from_slice(bytes);
        Ok(())
    }

    #[inline]
    fn extend<I: IntoIterator<Item = u8>>(&mut self, bytes: I) -> Result<(), AllocError> {
        Extend::extend(self.0, bytes);
        Ok(())
    }

    #[inline]
    fn truncate(&mut self, len: usize) {
        self.0.truncate(len);
    }
}
