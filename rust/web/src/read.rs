//! Shorthands of the proved reader.
#![forbid(unsafe_code)]

use dolzhytik::fallible::Global;
use dolzhytik::reader::{ReadFault, Readable, Standard};

/// Decodes the value at the front, and returns it with the bytes behind it.
pub fn read<'a, T: Readable<'a, Global, Standard>>(
    bytes: &'a [u8],
) -> Result<(T, &'a [u8]), ReadFault> {
    T::read(bytes, Global).map_err(|error| error.cause())
}
