// Written by tools/to-rust from crates/wasm_base/src/fixed.rt: change that.
// Fixed-width values: bytes, arrays of bytes, and vectors of 128 bits.

use crate::vec::Sink;
use crate::base::effect::Effect;
use crate::base::encode::Encode;
use crate::base::fault::{DecodeError, ReadFault};
use crate::base::grammar::Grammar;
use crate::base::readable::{Layout, Readable};
use crate::base::refused::Result;
use crate::base::walk::{Canonical, Walk, walk_value};
use crate::alloc::Allocator;

/// Encodes the number as one byte.
///
/// # Defined
///
/// ```text
/// encoding = { λ n. n ∷ [] }
/// encodable = { λ _. ⊤ }
/// ```
///
/// [How to read clauses](crate::definitions).
impl Encode for u8 {
    #[inline]
    fn encode<A: Sink>(&self, sink: &mut A) -> Result<()> {
        sink.push(*self)?;
        Ok(())
    }
}

/// Encodes the bytes as they are, without a count.
impl<const N: usize> Encode for [u8; N] {
    #[inline]
    fn encode<A: Sink>(&self, sink: &mut A) -> Result<()> {
        sink.extend_from_slice(self)?;
        Ok(())
    }
}

/// # Defined
///
/// ```text
/// Value = { ℕ }
/// format = { byte }
/// view = { λ b. b }
/// ```
///
/// Definitions: [`byte`](crate::definitions::base::formats::byte). [How to read clauses](crate::definitions).
impl Layout for u8 {
    fn laws() {}
}

/// # Defined
///
/// ```text
/// may_allocate = { ⊥ }
/// ```
///
/// [How to read clauses](crate::definitions).
impl<'a, A: Allocator + Copy, G: Grammar> Readable<'a, A, G> for u8 {
    #[inline]
    fn read(bytes: &'a [u8], _alloc: A) -> Result<(u8, &'a [u8]), DecodeError> {
        match bytes {
            [] => Err(ReadFault::Ended.at(bytes)),
            [b, rest @ ..] => Ok((*b, rest)),
        }
    }
}

impl Canonical for u8 {
    fn canonical() {}
}

impl<G: Grammar> Walk<G> for u8 {
    #[inline]
    fn walk<'a, A: Allocator + Copy, E: Effect>(
        bytes: &'a [u8],
        alloc: A,
        effect: &mut E,
    ) -> Result<&'a [u8], DecodeError> {
        walk_value::<u8, A, G, _>(bytes, alloc, effect)
    }
}

/// A vector's sixteen bytes, little-endian, in two's complement.
///
/// # Defined
///
/// ```text
/// Value = { ℤ }
/// format = { vector_format }
/// view = { λ v. v }
/// ```
///
/// Definitions: [`vector_format`](crate::definitions::base::formats::vector_format). [How to read clauses](crate::definitions).
impl Layout for i128 {
    fn laws() {}
}

/// # Defined
///
/// ```text
/// may_allocate = { ⊥ }
/// ```
///
/// [How to read clauses](crate::definitions).
impl<'a, A: Allocator + Copy, G: Grammar> Readable<'a, A, G> for i128 {
    fn read(bytes: &'a [u8], _alloc: A) -> Result<(i128, &'a [u8]), DecodeError> {
        match bytes.split_first_chunk::<16>() {
            Some((front, rest)) => Ok((i128::from_le_bytes(*front), rest)),
            None => Err(ReadFault::Ended.at(b"")),
        }
    }
}

/// Sixteen lanes, one byte each.
impl Layout for [u8; 16] {
    fn laws() {}
}

impl<'a, A: Allocator + Copy, G: Grammar> Readable<'a, A, G> for [u8; 16] {
    fn read(bytes: &'a [u8], _alloc: A) -> Result<([u8; 16], &'a [u8]), DecodeError> {
        match bytes.split_first_chunk::<16>() {
            Some((front, rest)) => Ok((*front, rest)),
            None => Err(ReadFault::Ended.at(b"")),
        }
    }
}
