// Written by tools/to-rust from crates/wasm_custom/src/single.rt: change that.
// Custom sections of one value: their encoding, their reader and their walk.

use crate::vec::Sink;
use crate::custom::custom_section::begin_custom;
use crate::custom::named::after_name;
use crate::alloc::Allocator;
use crate::base::{DecodeError, Effect, Encode, Grammar, Readable, Refused, Result, Shorten, Walk, encode_size_prefixed, encoding_size, read_whole, walk_whole};

/// Appends a custom section of this name without its id, whose data are these bytes with their size
/// prefix.
pub(crate) fn encode_single<A: Sink>(
    sink: &mut A,
    name: &str,
    bytes: &[u8],
) -> Result<()> {
    let Ok(short) = u32::try_from(bytes.len()) else {
        return Err(Refused::TooLong);
    };
    let size = bytes.len().saturating_add(encoding_size(short));
    begin_custom(sink, name, size)?;
    encode_size_prefixed(sink, bytes).unwrap();
    Ok(())
}

/// Decodes the payload of a custom section of this name, whose data are one value.
pub(crate) fn read_single<'a, T: Readable<'a, A, G>, A: Allocator + Copy, G: Grammar>(
    name: &str,
    bytes: &'a [u8],
    alloc: A,
) -> Result<T, DecodeError> {
    let rest = after_name::<A, G>(name, bytes, alloc)?;
    let value = read_whole::<'a, T, A, G>(rest, alloc)?;
    Ok(value)
}

/// Walks over the payload of a custom section of this name, whose data are one value.
pub(crate) fn walk_single<'a, T: Walk<G>, A: Allocator + Copy, G: Grammar, E: Effect>(
    name: &str,
    bytes: &'a [u8],
    alloc: A,
    effect: &mut E,
) -> Result<(), DecodeError> {
    let rest = after_name::<A, G>(name, bytes, alloc)?;
    effect.put(&name)?;
    walk_whole::<T, A, G, _>(rest, alloc, effect)?;
    Ok(())
}

/// Writes the bytes that [`append_single`] appends. After an error, part of them may follow the old
/// bytes.
fn write_single<T: Shorten, B: Sink>(
    name: &str,
    value: &T,
    sink: &mut B,
) -> Result<()> {
    name.encode(sink)?;
    value.write_minimal(sink)
}

/// Appends the minimal encoding of the payload of a custom section of this name, whose data are
/// this value. On an error, the sink is unchanged.
pub(crate) fn append_single<T: Shorten, B: Sink>(
    name: &str,
    value: &T,
    sink: &mut B,
) -> Result<()> {
    let start = sink.len();
    let written = write_single(name, value, sink);
    if written.is_err() {
        sink.truncate(start);
    }
    written
}
