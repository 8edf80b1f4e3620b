// Written by tools/to-rust from crates/wasm_custom/src/named.rt: change that.
// The name at the front of a custom section's payload.

use crate::alloc::Allocator;
use crate::base::{DecodeError, Grammar, ReadFault, Readable};

/// Returns the error of a section name `known` that is not `name`; `rest` are the bytes after it.
/// The error's offset is that of the size prefix's last byte if the sizes differ, and otherwise
/// that of the first byte that differs.
fn other_name(name: &str, known: &str, rest: &[u8]) -> DecodeError {
    let mut left = known.as_bytes();
    if left.len() != name.len() {
        return ReadFault::UnknownTag.just_before(left).before(rest);
    }
    for byte in name.as_bytes() {
        match left {
            [first, after @ ..] if first == byte => left = after,
            _ => break,
        }
    }
    ReadFault::UnknownTag.at(left).before(rest)
}

/// Skips the section name if it is `name`, and returns the remaining bytes.
pub(crate) fn after_name<'a, A: Allocator + Copy, G: Grammar>(
    name: &str,
    bytes: &'a [u8],
    alloc: A,
) -> Result<&'a [u8], DecodeError> {
    let (known, rest) = <&'a str as Readable<'a, A, G>>::read(bytes, alloc)?;
    if known == name {
        Ok(rest)
    } else {
        Err(other_name(name, known, rest))
    }
}
