//! Vectors whose calls return an error if an allocation fails, and the sinks that bytes are
//! appended to.
use crate::alloc::{AllocError, AllocFailed, Allocator, Global};
use crate::ending::{Growing, Root};
use alloc_crate::vec;
use core::fmt;
use core::ops::{Deref, DerefMut};

/// A vector whose calls return an error if an allocation fails.
///
/// It is a `std` vector and an allocator. It converts to and from a `std` vector without a copy:
///
/// ```
/// use dolzhytik::fallible::{Global, Module};
///
/// let module = Module::new(Global)?;
/// let bytes: std::vec::Vec<u8> = module.finish().into();
/// assert_eq!(bytes, b"\0asm\x01\0\0\0");
/// # Ok::<(), dolzhytik::fallible::Refused>(())
/// ```
///
/// It is a slice by [`Deref`], and has no `insert`. Append the item, and rotate it to its index:
///
/// ```
/// use dolzhytik::fallible::{Global, Vec};
///
/// let mut items = Vec::from_slice(Global, &["a", "c"])?;
/// items.extend_from_slice(&["b"])?;
/// items[1..].rotate_right(1);
/// assert_eq!(items[..], ["a", "b", "c"]);
/// # Ok::<(), dolzhytik::fallible::AllocError>(())
/// ```
pub struct Vec<T, A: Allocator = Global> {
    items: vec::Vec<T>,
    alloc: A,
}

impl<T, A: Allocator> Vec<T, A> {
    /// Creates an empty vector, without an allocation.
    #[inline]
    pub const fn new(alloc: A) -> Self {
        let items = vec::Vec::new();
        Vec { items, alloc }
    }

    /// Creates an empty vector with this capacity.
    ///
    /// # Errors
    ///
    /// Returns [`AllocError`] if the allocation fails.
    #[inline]
    pub fn with_capacity(alloc: A, capacity: usize) -> Result<Self, AllocError> {
        if A::ends() {
            let items = vec::Vec::with_capacity(capacity);
            return Ok(Vec { items, alloc });
        }
        let mut items = vec::Vec::new();
        if capacity > 0 {
            alloc.grant(capacity.saturating_mul(size_of::<T>()))?;
            items.try_reserve_exact(capacity)?;
        }
        Ok(Vec { items, alloc })
    }

    /// Returns the allocator.
    #[inline]
    pub fn allocator(&self) -> &A {
        &self.alloc
    }

    /// Returns the number of items that the vector can hold without an allocation.
    #[inline]
    pub fn capacity(&self) -> usize {
        self.items.capacity()
    }

    /// Returns the items.
    #[inline]
    pub fn as_slice(&self) -> &[T] {
        &self.items
    }

    /// Returns the `std` vector of the items, without a copy.
    #[inline]
    pub fn into_std(self) -> vec::Vec<T> {
        self.items
    }

    /// Returns the items as a list for which a failed allocation ends the program.
    pub(crate) fn into_ending(self) -> Vec<T, Root> {
        Vec {
            items: self.items,
            alloc: Root,
        }
    }

    /// Allocates spare capacity for `more` items; if `exact`, for no others.
    #[inline]
    fn grow(&mut self, more: usize, exact: bool) -> Result<(), AllocError> {
        if A::ends() {
            self.items.reserve(more);
            return Ok(());
        }
        self.grow_granted(more, exact)
    }

    /// Allocates spare capacity if the allocator grants it.
    #[cold]
    #[inline(never)]
    fn grow_granted(&mut self, more: usize, exact: bool) -> Result<(), AllocError> {
        let count = self.items.len().saturating_add(more);
        self.alloc.grant(count.saturating_mul(size_of::<T>()))?;
        let answer = if exact {
            self.items.try_reserve_exact(more)
        } else {
            self.items.try_reserve(more)
        };
        Ok(answer?)
    }

    /// Reserves spare capacity for at least `more` items, as `std` does.
    ///
    /// # Errors
    ///
    /// Returns [`AllocError`] if the allocation fails. The vector is unchanged.
    #[inline]
    pub fn reserve(&mut self, more: usize) -> Result<(), AllocError> {
        if self.items.capacity() - self.items.len() < more {
            self.grow(more, false)?;
        }
        Ok(())
    }

    /// Reserves spare capacity for `more` items.
    ///
    /// # Errors
    ///
    /// Returns [`AllocError`] if the allocation fails. The vector is unchanged.
    #[inline]
    pub fn reserve_exact(&mut self, more: usize) -> Result<(), AllocError> {
        if self.items.capacity() - self.items.len() < more {
            self.grow(more, true)?;
        }
        Ok(())
    }

    /// Appends an item.
    ///
    /// # Errors
    ///
    /// Returns the item in [`AllocFailed`] if an allocation fails. The vector is unchanged.
    #[inline]
    pub fn push(&mut self, item: T) -> Result<(), AllocFailed<T>> {
        if self.items.len() == self.items.capacity() && self.grow(1, false).is_err() {
            return Err(AllocFailed(item));
        }
        self.items.push(item);
        Ok(())
    }

    /// Appends an item to spare capacity. Without spare capacity the vector grows as a `std` vector
    /// does, which aborts if the allocation fails.
    #[inline]
    pub fn push_reserved(&mut self, item: T) {
        self.items.push(item);
    }

    /// Removes the last item and returns it.
    #[inline]
    pub fn pop(&mut self) -> Option<T> {
        self.items.pop()
    }

    /// Removes the items from index `len` on.
    #[inline]
    pub fn truncate(&mut self, len: usize) {
        self.items.truncate(len);
    }

    /// Keeps the items for which the function returns `true`, in their order.
    #[inline]
    pub fn retain<F: FnMut(&T) -> bool>(&mut self, keep: F) {
        self.items.retain(keep);
    }

    /// Removes all items, and keeps the capacity.
    #[inline]
    pub fn clear(&mut self) {
        self.items.clear();
    }

    /// Appends all items of the iterator, whatever its `size_hint` says.
    ///
    /// # Errors
    ///
    /// Returns [`AllocError`] if an allocation fails. The vector keeps the items that were appended
    /// before.
    #[inline]
    pub fn extend<I: IntoIterator<Item = T>>(&mut self, items: I) -> Result<(), AllocError> {
        let mut items = items.into_iter();
        let (least, most) = items.size_hint();
        self.reserve(least)?;
        let spare = self.items.capacity() - self.items.len();
        if let Some(most) = most
            && most <= spare
        {
            // The loop of `std` copies all items at once for an iterator of `std`. `take` bounds
            // it, so that it never grows the vector, which would abort if an allocation failed.
            self.items.extend(items.by_ref().take(most));
        }
        // An iterator may have more items than it reported.
        for item in items {
            self.push(item).map_err(|_| AllocError)?;
        }
        Ok(())
    }
}

impl<T> Vec<T, Root> {
    /// Returns the vector of `std`, which the calls of the root that append to one take.
    #[inline]
    pub(crate) fn as_std(&mut self) -> &mut vec::Vec<T> {
        &mut self.items
    }
}

impl<T: Clone, A: Allocator> Vec<T, A> {
    /// Creates a vector of these items.
    ///
    /// # Errors
    ///
    /// Returns [`AllocError`] if the allocation fails.
    pub fn from_slice(alloc: A, items: &[T]) -> Result<Self, AllocError> {
        let mut vec = Vec::with_capacity(alloc, items.len())?;
        vec.items.extend_from_slice(items);
        Ok(vec)
    }

    /// Appends these items.
    ///
    /// # Errors
    ///
    /// Returns [`AllocError`] if the allocation fails. The vector is unchanged.
    #[inline]
    pub fn extend_from_slice(&mut self, items: &[T]) -> Result<(), AllocError> {
        self.reserve(items.len())?;
        self.items.extend_from_slice(items);
        Ok(())
    }
}

impl<T, A: Allocator> Deref for Vec<T, A> {
    type Target = [T];

    #[inline]
    fn deref(&self) -> &[T] {
        &self.items
    }
}

impl<T, A: Allocator> DerefMut for Vec<T, A> {
    #[inline]
    fn deref_mut(&mut self) -> &mut [T] {
        &mut self.items
    }
}

impl<T, A: Allocator> AsRef<[T]> for Vec<T, A> {
    fn as_ref(&self) -> &[T] {
        &self.items
    }
}

impl<T: fmt::Debug, A: Allocator> fmt::Debug for Vec<T, A> {
    fn fmt(&self, f: &mut fmt::Formatter<'_>) -> fmt::Result {
        self.items.fmt(f)
    }
}

impl<T: PartialEq, A: Allocator, B: Allocator> PartialEq<Vec<T, B>> for Vec<T, A> {
    fn eq(&self, other: &Vec<T, B>) -> bool {
        self.items == other.items
    }
}

impl<T: Eq, A: Allocator> Eq for Vec<T, A> {}

impl<T> From<vec::Vec<T>> for Vec<T> {
    fn from(items: vec::Vec<T>) -> Self {
        Vec {
            items,
            alloc: Global,
        }
    }
}

impl<T, A: Allocator> From<Vec<T, A>> for vec::Vec<T> {
    fn from(vec: Vec<T, A>) -> Self {
        vec.items
    }
}

/// With the feature `std`.
#[cfg(feature = "std")]
impl<A: Allocator> std::io::Write for Vec<u8, A> {
    fn write(&mut self, bytes: &[u8]) -> std::io::Result<usize> {
        self.extend_from_slice(bytes)?;
        Ok(bytes.len())
    }

    fn flush(&mut self) -> std::io::Result<()> {
        Ok(())
    }
}

impl<T, A: Allocator> IntoIterator for Vec<T, A> {
    type Item = T;
    type IntoIter = vec::IntoIter<T>;

    fn into_iter(self) -> Self::IntoIter {
        self.items.into_iter()
    }
}

impl<'a, T, A: Allocator> IntoIterator for &'a Vec<T, A> {
    type Item = &'a T;
    type IntoIter = core::slice::Iter<'a, T>;

    fn into_iter(self) -> Self::IntoIter {
        self.items.iter()
    }
}

/// A list that bytes are appended to: a [`Vec`] of the package, or a `std` vector.
///
/// Calls such as [`Encode::encode`](crate::fallible::Encode::encode) take one. The trait is sealed.
/// Its calls return [`AllocError`] if an allocation fails.
///
/// ```
/// use dolzhytik::fallible::Encode;
///
/// let mut bytes = vec![0x7F];
/// 624485u32.encode(&mut bytes)?;
/// assert_eq!(bytes, [0x7F, 0xE5, 0x8E, 0x26]);
/// # Ok::<(), dolzhytik::fallible::Refused>(())
/// ```
pub trait Sink: DerefMut<Target = [u8]> + Sealed {
    /// Returns the number of bytes that the sink can hold without an allocation.
    fn capacity(&self) -> usize;

    /// Reserves spare capacity for at least `more` bytes.
    ///
    /// # Errors
    ///
    /// Returns [`AllocError`] if the allocation fails.
    fn reserve(&mut self, more: usize) -> Result<(), AllocError>;

    /// Appends a byte.
    ///
    /// # Errors
    ///
    /// Returns [`AllocError`] if an allocation fails. The sink is unchanged.
    #[inline]
    fn push(&mut self, byte: u8) -> Result<(), AllocError> {
        self.extend_from_slice(&[byte])
    }

    /// Appends a byte to spare capacity. Without it the sink grows as a `std` vector does.
    #[inline]
    fn push_reserved(&mut self, byte: u8) {
        self.extend_from_slice(&[byte]).ok();
    }

    /// Appends two bytes to spare capacity. Without it the sink grows as a `std` vector does.
    #[inline]
    fn push_both_reserved(&mut self, bytes: [u8; 2]) {
        self.extend_from_slice(&bytes).ok();
    }

    /// Appends these bytes.
    ///
    /// # Errors
    ///
    /// Returns [`AllocError`] if an allocation fails. The sink is unchanged.
    fn extend_from_slice(&mut self, bytes: &[u8]) -> Result<(), AllocError>;

    /// Appends the bytes of the iterator.
    ///
    /// # Errors
    ///
    /// Returns [`AllocError`] if an allocation fails. The sink keeps the bytes that were appended
    /// before.
    #[inline]
    fn extend<I: IntoIterator<Item = u8>>(&mut self, bytes: I) -> Result<(), AllocError> {
        bytes.into_iter().try_for_each(|byte| self.push(byte))
    }

    /// Removes the bytes from index `len` on.
    fn truncate(&mut self, len: usize);
}

/// The most bytes of an iterator that are collected on the stack. A loop over an array is unrolled,
/// and one that grows a vector is not: it copies up to 64 bytes one by one.
const SHORT: usize = 256;

impl<A: Allocator> Sink for Vec<u8, A> {
    #[inline]
    fn capacity(&self) -> usize {
        self.capacity()
    }

    #[inline]
    fn reserve(&mut self, more: usize) -> Result<(), AllocError> {
        if A::ends() {
            return Growing(&mut self.items).reserve(more);
        }
        self.reserve(more)
    }

    #[inline]
    fn push(&mut self, byte: u8) -> Result<(), AllocError> {
        if A::ends() {
            return Growing(&mut self.items).push(byte);
        }
        if self.items.len() == self.items.capacity() {
            Sink::reserve(self, 1)?;
        }
        self.items.push(byte);
        Ok(())
    }

    #[inline]
    fn push_reserved(&mut self, byte: u8) {
        if A::ends() {
            return Growing(&mut self.items).push_reserved(byte);
        }
        self.items.extend_from_slice(&[byte]);
    }

    #[inline]
    fn push_both_reserved(&mut self, bytes: [u8; 2]) {
        if A::ends() {
            return Growing(&mut self.items).push_both_reserved(bytes);
        }
        self.items.extend_from_slice(&bytes);
    }

    #[inline]
    fn extend_from_slice(&mut self, bytes: &[u8]) -> Result<(), AllocError> {
        if A::ends() {
            return Growing(&mut self.items).extend_from_slice(bytes);
        }
        self.extend_from_slice(bytes)
    }

    #[inline]
    fn extend<I: IntoIterator<Item = u8>>(&mut self, bytes: I) -> Result<(), AllocError> {
        if A::ends() {
            return Growing(&mut self.items).extend(bytes);
        }
        let mut bytes = bytes.into_iter();
        if let (least, Some(most)) = bytes.size_hint()
            && least == most
            && most <= SHORT
        {
            let mut block = [0; SHORT];
            let slots = &mut block[..most];
            let mut given = 0;
            while given < slots.len()
                && let Some(byte) = bytes.next()
            {
                slots[given] = byte;
                given += 1;
            }
            self.extend_from_slice(&slots[..given])?;
        }
        // An iterator may hold more bytes than it said.
        self.extend(bytes)
    }

    #[inline]
    fn truncate(&mut self, len: usize) {
        self.truncate(len);
    }
}

/// Reserves spare capacity for `more` bytes in a `std` vector.
#[cold]
#[inline(never)]
fn grow(bytes: &mut vec::Vec<u8>, more: usize) -> Result<(), AllocError> {
    Ok(bytes.try_reserve(more)?)
}

/// A `std` vector, which takes its memory from the program's allocator.
impl Sink for vec::Vec<u8> {
    #[inline]
    fn capacity(&self) -> usize {
        self.capacity()
    }

    #[inline]
    fn reserve(&mut self, more: usize) -> Result<(), AllocError> {
        if self.capacity() - self.len() < more {
            grow(self, more)?;
        }
        Ok(())
    }

    #[inline]
    fn push(&mut self, byte: u8) -> Result<(), AllocError> {
        if self.len() == self.capacity() {
            grow(self, 1)?;
        }
        self.push(byte);
        Ok(())
    }

    #[inline]
    fn push_reserved(&mut self, byte: u8) {
        self.extend_from_slice(&[byte]);
    }

    #[inline]
    fn push_both_reserved(&mut self, bytes: [u8; 2]) {
        self.extend_from_slice(&bytes);
    }

    #[inline]
    fn extend_from_slice(&mut self, bytes: &[u8]) -> Result<(), AllocError> {
        Sink::reserve(self, bytes.len())?;
        self.extend_from_slice(bytes);
        Ok(())
    }

    #[inline]
    fn extend<I: IntoIterator<Item = u8>>(&mut self, bytes: I) -> Result<(), AllocError> {
        let mut lent = Vec::from(core::mem::take(self));
        let answer = lent.extend(bytes);
        *self = lent.into();
        answer
    }

    #[inline]
    fn truncate(&mut self, len: usize) {
        self.truncate(len);
    }
}

/// Seals [`Sink`].
pub(crate) use sealed::Sealed;

mod sealed {
    pub trait Sealed {}

    impl<A: super::Allocator> Sealed for super::Vec<u8, A> {}

    impl Sealed for alloc_crate::vec::Vec<u8> {}
}
