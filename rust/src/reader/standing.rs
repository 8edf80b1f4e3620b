// Written by tools/to-rust from crates/wasm_reader/src/standing.rt: change that.
// Splits a module into its sections, without decoding their payloads.

use crate::reader::kinds::{SectionKind, kind_of_id, kind_of_name};
use crate::alloc::Allocator;
use crate::base::{DecodeError, Padded, Readable};

/// A section of a module, with its payload not yet decoded.
#[derive(Clone, Copy, Debug)]
pub(crate) struct Standing<'a> {
    pub(crate) id: u8,
    /// The size prefix and the payload.
    pub(crate) sized: &'a [u8],
    /// The payload.
    pub(crate) payload: &'a [u8],
    /// The name of a custom section, if its payload begins with one.
    pub(crate) name: Option<&'a str>,
    /// The bytes of the payload after the name, or all of them if there is none.
    pub(crate) data: &'a [u8],
}

impl Standing<'_> {
    /// Returns the kind that its payload is decoded as.
    pub(crate) fn kind(&self) -> SectionKind {
        match self.name {
            Some(name) => kind_of_name(name),
            None if self.id == 1 => SectionKind::Types,
            None => kind_of_id(self.id),
        }
    }
}

/// Returns the name of a custom section, if its payload begins with one, and the data after it.
fn name_of<'a, A: Allocator + Copy>(
    id: u8,
    payload: &'a [u8],
    alloc: A,
) -> (Option<&'a str>, &'a [u8]) {
    if id != 0 {
        return (None, payload);
    }
    match <&'a str as Readable<'a, A, Padded>>::read(payload, alloc) {
        Ok((name, data)) => (Some(name), data),
        Err(_) => (None, payload),
    }
}

/// Splits off the section at the front, which begins with its id, and returns it with the remaining
/// bytes.
pub(crate) fn read_standing<'a, A: Allocator + Copy>(
    bytes: &'a [u8],
    alloc: A,
) -> Result<(Standing<'a>, &'a [u8]), DecodeError> {
    let (id, rest) = <u8 as Readable<'a, A, Padded>>::read(bytes, alloc)?;
    let (payload, after) = <&'a [u8] as Readable<'a, A, Padded>>::read(rest, alloc)?;
    let sized = &rest[..rest.len() - after.len()];
    let (name, data) = name_of(id, payload, alloc);
    Ok((
        Standing {
            id,
            sized,
            payload,
            name,
            data,
        },
        after,
    ))
}
