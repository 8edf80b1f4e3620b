// Written by tools/to-rust from crates/wasm_sections/src/flags.rt: change that.
// Helpers for bytes of flags.

/// Returns `weight` if the bit is set, and 0 otherwise.
#[inline]
pub(crate) fn where_set(set: bool, weight: u8) -> u8 {
    if set { weight } else { 0 }
}
