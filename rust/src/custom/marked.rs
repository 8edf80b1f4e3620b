// Written by tools/to-rust from crates/wasm_custom/src/marked.rt: change that.
// Values after a fixed byte.

use crate::alloc::Allocator;
use crate::base::{DecodeError, Effect, Grammar, Layout, ReadFault, Readable, Walk};

/// Decodes the byte `mark` and the value after it, and returns the value with the remaining bytes.
pub(crate) fn read_marked<'a, T: Readable<'a, A, G>, A: Allocator + Copy, G: Grammar>(
    mark: u8,
    bytes: &'a [u8],
    alloc: A,
) -> Result<(T, &'a [u8]), DecodeError> {
    let (first, rest) = <u8 as Readable<'a, A, G>>::read(bytes, alloc)?;
    if first != mark {
        return Err(ReadFault::UnknownTag.just_before(rest));
    }
    let (value, rest) = T::read(rest, alloc)?;
    Ok((value, rest))
}

/// Walks over the byte `mark` and the value after it.
pub(crate) fn walk_marked<'a, T: Walk<G>, A: Allocator + Copy, G: Grammar, E: Effect>(
    mark: u8,
    bytes: &'a [u8],
    alloc: A,
    effect: &mut E,
) -> Result<&'a [u8], DecodeError> {
    let (first, after) = <u8 as Readable<'a, A, G>>::read(bytes, alloc)?;
    if first != mark {
        return Err(ReadFault::UnknownTag.just_before(after));
    }
    effect.put(&mark)?;
    let rest = T::walk(after, alloc, effect)?;
    Ok(rest)
}

/// The name of a process or a module: the byte 00, and a name.
#[derive(Clone, Copy, Debug)]
pub(crate) struct MarkedName<'a>(pub &'a str);

/// # Defined
///
/// ```text
/// Value = { List ℕ }
/// format = { marked_name }
/// view = { λ m. m.0.now }
/// ```
///
/// Definitions: [`marked_name`](crate::definitions::custom::core_dumps::marked_name). [How to read clauses](crate::definitions).
impl<'a> Layout for MarkedName<'a> {
    /// # Proved
    ///
    /// A format whose encodings determine their own end is unambiguous in every mode, with encodings as `HasEncodings` states.
    ///
    /// ```text
    /// ensures { Unambiguous marked_name }
    /// ```
    ///
    /// Definitions: [`Unambiguous`](crate::definitions::base::decoding::Unambiguous), [`marked_name`](crate::definitions::custom::core_dumps::marked_name). [How to read clauses](crate::definitions).
    fn laws() {}
}

/// # Defined
///
/// ```text
/// may_allocate = { ⊥ }
/// ```
///
/// [How to read clauses](crate::definitions).
impl<'a, A: Allocator + Copy, G: Grammar> Readable<'a, A, G> for MarkedName<'a> {
    fn read(bytes: &'a [u8], alloc: A) -> Result<(MarkedName<'a>, &'a [u8]), DecodeError> {
        let (name, rest) = read_marked::<'a, &'a str, A, G>(0x00, bytes, alloc)?;
        Ok((MarkedName(name), rest))
    }
}
