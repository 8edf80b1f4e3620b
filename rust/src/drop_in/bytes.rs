//! The bytes of a constant expression, and the calls that append to a list.
use super::done;
use crate::alloc::AllocError;
use crate::base::{Encode, EncodeOnce};
use crate::ending::Growing;
use crate::vec::{Sealed, Sink};
use alloc_crate::vec::Vec;
use core::ops::{Deref, DerefMut};

/// The most bytes that [`Bytes`] holds without an allocation: as many as fit in the size of a
/// vector, with their number, beside the word of the capacity, whose spare values mark the case.
pub const INLINE: usize = 15;

/// A list of bytes that takes no allocation while it is short. Its calls never fail, as those of
/// [`Growing`].
#[derive(Clone)]
pub enum Bytes {
    Inline(u8, [u8; INLINE]),
    Listed(Vec<u8>),
}

impl Bytes {
    /// Returns no bytes.
    #[inline]
    pub const fn new() -> Self {
        Bytes::Inline(0, [0; INLINE])
    }

    /// Returns the bytes that an iterator yields.
    pub fn of(bytes: impl IntoIterator<Item = u8>) -> Self {
        let mut list = Bytes::new();
        list.extend(bytes).ok();
        list
    }

    /// Returns the bytes as a vector, with spare capacity for `more`.
    #[cold]
    #[inline(never)]
    fn listed(&mut self, more: usize) -> &mut Vec<u8> {
        if let Bytes::Inline(..) = self {
            let mut list = Vec::with_capacity(self.len().saturating_add(more).max(2 * INLINE));
            list.extend_from_slice(self);
            *self = Bytes::Listed(list);
        }
        match self {
            Bytes::Listed(list) => list,
            Bytes::Inline(..) => unreachable!("the bytes were made a list"),
        }
    }
}

/// Keeps few bytes without the list.
impl From<Vec<u8>> for Bytes {
    fn from(list: Vec<u8>) -> Self {
        if list.len() > INLINE {
            return Bytes::Listed(list);
        }
        let mut bytes = Bytes::new();
        bytes.extend_from_slice(&list).ok();
        bytes
    }
}

impl Deref for Bytes {
    type Target = [u8];

    #[inline]
    fn deref(&self) -> &[u8] {
        match self {
            Bytes::Inline(len, bytes) => &bytes[..usize::from(*len)],
            Bytes::Listed(list) => list,
        }
    }
}

impl DerefMut for Bytes {
    #[inline]
    fn deref_mut(&mut self) -> &mut [u8] {
        match self {
            Bytes::Inline(len, bytes) => &mut bytes[..usize::from(*len)],
            Bytes::Listed(list) => list,
        }
    }
}

impl Sealed for Bytes {}

impl Sink for Bytes {
    #[inline]
    fn capacity(&self) -> usize {
        match self {
            Bytes::Inline(..) => INLINE,
            Bytes::Listed(list) => list.capacity(),
        }
    }

    #[inline]
    fn reserve(&mut self, more: usize) -> Result<(), AllocError> {
        if self.capacity() - self.len() < more {
            self.listed(more).reserve(more);
        }
        Ok(())
    }

    #[inline]
    fn extend_from_slice(&mut self, bytes: &[u8]) -> Result<(), AllocError> {
        if let Bytes::Inline(len, room) = self
            && let Some(end) = usize::from(*len).checked_add(bytes.len())
            && let Some(place) = room.get_mut(usize::from(*len)..end)
        {
            place.copy_from_slice(bytes);
            *len = end as u8;
        } else {
            self.listed(bytes.len()).extend_from_slice(bytes);
        }
        Ok(())
    }

    #[inline]
    fn truncate(&mut self, len: usize) {
        match self {
            Bytes::Inline(had, _) => *had = len.min(usize::from(*had)) as u8,
            Bytes::Listed(list) => list.truncate(len),
        }
    }
}

/// Appends the encoding of a value by its proved `encode`.
#[inline]
pub fn append(value: &impl Encode, bytes: &mut Vec<u8>) {
    done(value.encode(&mut Growing(bytes)))
}

/// Appends the encoding of a value by its proved `encode_once`, which consumes it.
#[inline]
pub fn append_once(value: impl EncodeOnce, bytes: &mut Vec<u8>) {
    done(value.encode_once(&mut Growing(bytes)))
}
