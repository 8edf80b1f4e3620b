// Written by tools/to-rust from crates/wasm_remap/src/streamed.rt: change that.
// Values that are decoded, mapped and appended in one pass over the bytes.

use crate::vec::Sink;
use crate::remap::indexed::{Remap, RemapError};
use crate::alloc::Allocator;
use crate::base::{DecodeError, Encode, ReadFault, Readable, Refused, Standard};

/// Why a pass stops.
pub(crate) enum Stopped {
    /// There is no memory.
    Memory,
    /// The bytes do not decode, the map rejects an index, or an encoding is too long. The same
    /// items, decoded to a list, give the error.
    Other,
}

/// # Defined
///
/// ```text
/// from_gives = { λ _ _. Unit }
/// ```
///
/// [How to read clauses](crate::definitions).
impl From<DecodeError> for Stopped {
    fn from(error: DecodeError) -> Stopped {
        if error.cause() == ReadFault::Memory {
            Stopped::Memory
        } else {
            Stopped::Other
        }
    }
}

/// # Defined
///
/// ```text
/// from_gives = { λ _ _. Unit }
/// ```
///
/// [How to read clauses](crate::definitions).
impl From<Refused> for Stopped {
    fn from(refused: Refused) -> Stopped {
        match refused {
            Refused::Memory => Stopped::Memory,
            Refused::TooLong => Stopped::Other,
        }
    }
}

/// # Defined
///
/// ```text
/// from_gives = { λ _ _. Unit }
/// ```
///
/// [How to read clauses](crate::definitions).
impl<E> From<RemapError<E>> for Stopped {
    fn from(error: RemapError<E>) -> Stopped {
        match error {
            RemapError::Refused(refused) => refused.into(),
            _ => Stopped::Other,
        }
    }
}

/// A value that is decoded, mapped and appended in one pass.
///
/// # Defined
///
/// ```text
/// Value: { Type 0 }
/// format: { Mode → List ℕ → Value → Type 0 }
/// image: { Mapping → Value → Value }
/// ```
///
/// Definitions: [`Mode`](crate::definitions::base::numbers::Mode), [`Mapping`](crate::definitions::remap::mapping::Mapping). [How to read clauses](crate::definitions).
pub(crate) trait Streamed<A: Allocator + Copy> {
    // The values without locations in memory.

    // The format: which bytes encode which value.

    // The value with each index mapped.

    /// Appends the minimal encoding of the value at the front with each index mapped, and returns the
    /// remaining bytes. After an error, part of it may follow the old bytes of the sink.
    ///
    /// # Proved
    ///
    /// `front`: The new bytes begin with the old ones.
    ///
    /// ```text
    /// ensures found { IfOk result
    ///     (λ rest. (m : Mapping) → Follows (M.mapped indices.now) (M.rejects indices.now) m
    ///         → Remaps (image m) format bytes.now rest.now sink.old.items sink.new.items) }
    /// ensures front { IsFrontOf sink.old.items sink.new.items }
    /// ```
    ///
    /// Definitions: [`Mapping`](crate::definitions::remap::mapping::Mapping), [`Follows`](crate::definitions::remap::mapping::Follows), [`Remaps`](crate::definitions::remap::streamed::Remaps), [`IsFrontOf`](crate::definitions::base::minimal::IsFrontOf). [How to read clauses](crate::definitions).
    fn append_remapped<'a, M: Remap, B: Sink>(
        bytes: &'a [u8],
        alloc: A,
        indices: &M,
        sink: &mut B,
    ) -> Result<&'a [u8], Stopped>;
}

/// Appends the minimal encoding of the vector at the front with each index of its members mapped.
/// No list of members is kept.
pub(crate) fn append_many<'a, T: Streamed<A>, A: Allocator + Copy, M: Remap, B: Sink>(
    bytes: &'a [u8],
    alloc: A,
    indices: &M,
    sink: &mut B,
) -> Result<&'a [u8], Stopped> {
    let (count, mut rest) = <u32 as Readable<'a, A, Standard>>::read(bytes, alloc)?;
    count.encode(sink)?;
    for _taken in 0..count {
        rest = T::append_remapped(rest, alloc, indices, sink)?;
    }
    Ok(rest)
}
